# What the scripts of tests share: a folder for the work that is gone at the end, and tests that are counted. It is sourced from the root of the repository.
passed=0
failed=0
work=$(mktemp -d) || exit 1
trap 'rm -rf "$work"' EXIT

# Counts a test by whether the command after its name succeeds.
expect() {
  local name=$1
  shift
  if "$@"; then
    passed=$((passed + 1))
  else
    echo "tests: $name"
    failed=$((failed + 1))
  fi
}
