# shellcheck shell=sh
# shellcheck disable=SC2154 # tests/run, which reads this, has the variables
# The library beside the independent program.

step 'the comparison is built' build_compare
step 'library and independent program agree' run compare
