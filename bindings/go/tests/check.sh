#!/usr/bin/env bash
# The tests of the package for Go, most of which are in bindings/go: tests/run go. It installs the Debian packages that
# it needs. Its last line is 'N passed, M failed'; the status is 1 if any failed.
. "$(dirname "$0")/../../../tests/steps.sh"

need gcc gcc libc6-dev
need go golang-go
. "$top/tests/library.sh"
page=bindings/go/README.md

step "questions and edges" questions
step "shapes in degrees" shapes
step "texts and bytes of shapes" maps
step "texts and bytes of shapes, beside a plain reader" readings
export GOPATH=$work/go GOCACHE=$work/go-cache GOFLAGS=-mod=mod GOPROXY=off GOTOOLCHAIN=local
path=$(sed -n 's/^module //p' "$top/bindings/go/go.mod")
for_go() (
  [ -z "$(gofmt -l "$top/bindings/go")" ] && cp -r "$top/bindings/go" "$work/for-go" && cd "$work/for-go" &&
    /usr/bin/python3 -B "$top/tools/methods.py" . "$top/bindings/go/vectors_test.go" && go vet . &&
    timeout 7200 go test -count=1 .
)
by_go() ( # the page's program, in a module of its own
  mkdir -p "$work/by-go" && cd "$work/by-go" && program_of $page go main.go && [ -z "$(gofmt -l .)" ] &&
    go mod init program && go mod edit -require "$path@v0.0.0" -replace "$path=$top/bindings/go" &&
    go build -o program && says $page go ./program
)
step "against the model, the edges, what is refused, and the examples" for_go
step "$page" by_go
without_memory() (
  gcc -std=c11 -O2 "${strict[@]}" -fPIC -shared "$top/tests/refuse.c" -o "$work/refuse.so" && mkdir "$work/memory" &&
    cd "$work/memory" && cp "$top/bindings/go/tests/memory/memory.go" "$work/by-go/go.mod" . && go build -o program &&
    LD_PRELOAD=$work/refuse.so ./program
)
step "zones, each allocation of C refused in turn" without_memory
first_lines() (
  mkdir -p "$work/first" && cd "$work/first" && cp "$work/by-go/go.mod" . &&
    lines_of go "package main
import (
\"fmt\"
s2union \"$path\"
)
func main() {" "}" main.go && go build -o program && first_says ./program
)
step "README.md" first_lines
served() (
  mkdir "$work/service" && cd "$work/service" && cp "$work/by-go/go.mod" . && program_of $page "go service" main.go &&
    [ -z "$(gofmt -l .)" ] && go build -o program && serves $page go ./program
)
step_of_service served
got_by_go() ( # the program with the module as a proxy of Go's hands it out
  local at=$work/proxy/$path/@v
  mkdir -p "$at" "$work/got-by-go" && cd "$top/bindings/go" && cp go.mod "$at/v1.0.0.mod" &&
    echo '{"Version":"v1.0.0"}' >"$at/v1.0.0.info" && /usr/bin/python3 -c 'import sys, zipfile
with zipfile.ZipFile(sys.argv[1], "w") as made:
    for name in sys.argv[3:]:
        made.write(name, f"{sys.argv[2]}@v1.0.0/{name}")' "$at/v1.0.0.zip" "$path" \
      $(git ls-files . ':!bench' ':!tests') &&
    cd "$work/got-by-go" && cp "$work/by-go/main.go" . && go mod init program &&
    GOPROXY=file://$work/proxy GONOSUMDB=* go get "$path@v1.0.0" && go vet . && go build -o program &&
    says $page go ./program
)
step "$page, by go get" got_by_go
static_go() (
  cd "$work/by-go" && CGO_LDFLAGS=-static go build -o alone && ! ldd alone && says $page go env -i ./alone
)
step "$page, without a shared library" static_go

finish
