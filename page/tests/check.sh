#!/usr/bin/env bash
# The page in Chromium without a screen, beside the library: tests/run --tier full page. With -- --figures it prints the
# figures of page/README.md too, with -- --pictures it makes the stored pictures anew, and with -- --screenshot that of
# page/README.md. With --short, as the gate has it, the slowest tests are left out. It installs the Debian packages that
# it needs. Its last line is 'N passed, M failed'; the status is 1 if any failed.
. "$(dirname "$0")/../../tests/steps.sh"

need_pytest
need chromium chromium
need chromedriver chromium-driver
need_modules selenium python3-selenium
need_modules numpy python3-numpy
need_linker

in_browser() { # the library's module for Python answers beside the page
  PYTHONPATH=$work/usr/lib/python PYTHONDONTWRITEBYTECODE=1 \
    timeout 7200 /usr/bin/python3 -m pytest -s "$top/page/tests" "$@"
}

need_packages
need_library
need_page
if [ "${1:-}" = --short ]; then
  step "the page in Chromium" in_browser --page "$work/page" --short -m "not slow" "${@:2}"
else
  step "the page in Chromium" in_browser --page "$work/page" "$@"
  grep -E '^figure:' "$work/log" | sed 's/^figure:/       /'
fi
finish
