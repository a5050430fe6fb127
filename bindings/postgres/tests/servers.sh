#!/usr/bin/env bash
# The tests of docs/SERVERS.md: tests/run servers. Copies of the server that Debian ships run in folders and in
# network namespaces of their own, so it needs root; the machine's own network is left alone. Nothing is installed
# except Debian's packages. The last line is 'N passed, M failed'; the status is 1 if any failed.
. "$(dirname "$0")/../../../tests/steps.sh"
need ip iproute2
need_packages
. "$top/tests/geo/countries.sh"
need_countries
. "$top/bindings/postgres/tests/server.sh"

export NET=s2u$$ WORK=$work
without_network() {
  local name
  for name in first second third replica; do ip netns del "$NET-$name"; done 2>/dev/null
  ip netns del "$NET" 2>/dev/null
}
trap 'end; without_network' EXIT

network() { # a switch, and a namespace for each server, whose cable is named like it
  local name number=0
  ip netns add "$NET" && ip -n "$NET" link add switch type bridge && ip -n "$NET" link set switch up || return 1
  for name in first second third replica; do
    number=$((number + 1))
    ip netns add "$NET-$name" && ip -n "$NET" link add "$name" type veth peer name eth0 netns "$NET-$name" &&
      ip -n "$NET" link set "$name" master switch up && ip -n "$NET-$name" link set lo up &&
      ip -n "$NET-$name" addr add "192.0.2.$number/24" dev eth0 && ip -n "$NET-$name" link set eth0 up || return 1
  done
}
step "a network of four" network
step "a copy of PostgreSQL $server" copied
step "build" built build COPT=-Werror
[ "$failed" -eq 0 ] || finish
step "install" make -C "$work/build" PREFIX="$work/usr" PG_CONFIG="$config" install DESTDIR="$copy"

{ echo "local all all trust" && block docs/SERVERS.md "text hba"; } >"$work/hba"
settings=("listen_addresses = '*'" "hba_file = '$work/hba'" "log_lock_waits = on")
on() { # NAME: what the functions below run as
  as_postgres=(ip netns exec "$NET-$1" runuser -u postgres --)
}
placed() { # NAME: a server in its namespace
  local as_postgres
  on "$1" && begun "$1" "${settings[@]}"
}
replicated() {
  local as_postgres folder=$work/replica
  on replica && mkdir "$folder" && chown postgres "$folder" && chmod 700 "$folder" && cd / && clusters+=(replica) &&
    "${as_postgres[@]}" "$bin/pg_basebackup" -h 192.0.2.3 -U postgres -D "$folder" -R -c fast &&
    rm -f "$folder"/{.s.PGSQL.5432.lock,log} &&
    echo "unix_socket_directories = '$folder'" >>"$folder/postgresql.conf" &&
    "${as_postgres[@]}" "$bin/pg_ctl" -D "$folder" -l "$folder/log" -w start &&
    block docs/SERVERS.md "sql replica" | psql -Xq -v ON_ERROR_STOP=1 -h "$work/third"
}
for name in first second third; do step "the $name server" placed "$name"; done
step "a replica of the third" replicated
[ "$failed" -eq 0 ] || finish

page() {
  ip netns exec "$NET-first" /usr/bin/python3 "$top/tests/docs/documented.py" "$top/docs/SERVERS.md" \
    psql -XAqt -h 192.0.2.1 -U postgres -d postgres
}
step "docs/SERVERS.md" page
TESTS=test_servers.py
step "its joins, beside loops over all pairs" tests AfterThePage::test_all_pairs
step "a part moves back while rows come in and are counted" tests AfterThePage::test_a_part_moves
step "questions over three servers; fetch_size" tests AfterThePage::test_questions AfterThePage::test_fetch_size
step "the countries of the earth, covered" countries 200
over_the_countries() {
  PYTHONPATH=$top/tests/geo:$top/docs/examples:$work/usr/lib/python tests OverTheCountries
}
step "100,000 points joined with the countries, beside a loop over all pairs" over_the_countries
step "a cable is cut" tests AfterThePage::test_a_cable_is_cut
step "the replica is down: rows for its server wait" tests AfterThePage::test_the_replica_is_down
step "a server is down: its replica answers, and takes its place" tests AfterThePage::test_a_server_is_down
step "no server has fallen" whole
finish
