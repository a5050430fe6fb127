// Regions through pgx and database/sql, with pgx and lib/pq, of the server that PGHOST names: each union goes into a
// column and comes back, as bytes and as a text, and cells do as numbers. The last line is 'N passed, M failed'.
package main

import (
	"context"
	"database/sql"
	"fmt"
	"os"

	"github.com/jackc/pgx/v4"
	_ "github.com/jackc/pgx/v4/stdlib"
	_ "github.com/lib/pq"

	s2union "not-published.invalid/s2union/bindings/go"
)

var passed, failed int

func check(holds bool, what ...any) {
	if holds {
		passed++
		return
	}
	failed++
	fmt.Println(append([]any{"FAILED"}, what...)...)
}

func must(err error) {
	if err != nil {
		fmt.Println(err)
		os.Exit(2)
	}
}

// row is a row of either driver.
type row interface{ Scan(...any) error }

func asked(name string, exec func(string, ...any) error, query func(string, ...any) row) {
	must(exec("CREATE TEMP TABLE woods (id int, region s2union, leaf bigint)"))
	for id, tokens := range []string{"", "04 0c", "1 3 5 7 9 b", "89c25 1/0123", "b"} {
		var union, file, text s2union.CellUnion
		var leaf s2union.CellID
		must(union.UnmarshalText([]byte(tokens)))
		last := s2union.CellID(0xbfffffffffffffff - 2*uint64(id))
		must(exec("INSERT INTO woods VALUES ($1, $2::bytea::s2union, $3)", id, union, last))
		must(query("SELECT region::bytea, region::text, leaf FROM woods WHERE id = $1", id).Scan(&file, &text, &leaf))
		check(fmt.Sprint(file) == fmt.Sprint(union), name, tokens, file)
		check(fmt.Sprint(text) == fmt.Sprint(union), name, tokens, text)
		check(leaf == last, name, leaf)
		var found bool
		must(query("SELECT $1::bytea::s2union = region FROM woods WHERE id = $2", union, id).Scan(&found))
		check(found, name, tokens)
	}
	err := exec("INSERT INTO woods VALUES (9, $1::bytea::s2union, 1)", []byte{2})
	check(err != nil, name, "bytes of no union")
}

func main() {
	for _, driver := range []string{"postgres", "pgx"} {
		db, err := sql.Open(driver, "user=postgres dbname=postgres sslmode=disable")
		must(err)
		db.SetMaxOpenConns(1) // a temporary table is of one connection
		asked(driver,
			func(text string, words ...any) error { _, err := db.Exec(text, words...); return err },
			func(text string, words ...any) row { return db.QueryRow(text, words...) })
		must(db.Close())
	}
	all := context.Background()
	connection, err := pgx.Connect(all, "user=postgres dbname=postgres sslmode=disable")
	must(err)
	asked("pgx alone",
		func(text string, words ...any) error { _, err := connection.Exec(all, text, words...); return err },
		func(text string, words ...any) row { return connection.QueryRow(all, text, words...) })
	must(connection.Close(all))
	fmt.Printf("%d passed, %d failed\n", passed, failed)
	if failed > 0 {
		os.Exit(1)
	}
}
