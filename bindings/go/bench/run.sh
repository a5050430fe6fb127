#!/usr/bin/env bash
# The time of operations of the package for Go on 2 cells and many: bench/run go [ROUNDS]. It installs the Debian
# packages that it needs.
. "$(dirname "$0")/../../../tools/usage.sh"
. "$(dirname "$0")/../../../tests/steps.sh"
need go golang-go
. "$top/tests/library.sh"
path=$(sed -n 's/^module //p' "$top/bindings/go/go.mod")
export GOPATH=$work/go GOCACHE=$work/go-cache GOFLAGS=-mod=mod GOPROXY=off GOTOOLCHAIN=local
mkdir "$work/by-go" && cd "$work/by-go" && sed "s|MODULE|$path|" "$top/bindings/go/bench/calls.go" >main.go &&
  go mod init program 2>/dev/null && go mod edit -require "$path@v0.0.0" -replace "$path=$top/bindings/go" &&
  go build -o program && ./program "$@"
