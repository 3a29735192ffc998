#!/bin/sh
# Runs all benches but search.py, instructions.py, loading.py and planted.py against the program, and writes their figures into the pages; ends with status 1 where
# one found a problem. On a machine that does nothing else:
#
#     PROGRAM=crates/solr_split/out/solr_split bench/figures.sh
set -u
cd "$(dirname "$0")/.." || exit 1
PROGRAM=$(realpath "${PROGRAM:-crates/solr_split/out/solr_split}")
export PROGRAM
problems=0
bench/guide.py docs/COMING_FROM_SOLR.md || problems=1
bench/refused_memory.py || problems=1
bench/stress.py || problems=1
bench/split_under_load.py --svg docs/split_under_load.svg --page docs/SPLIT_UNDER_LOAD.md || problems=1
bench/throughput.py --page bench/README.md || problems=1
bench/hostile.py --page bench/README.md || problems=1
bench/overwritten.py --page bench/README.md || problems=1
examples/first_steps.sh > /dev/null && echo 'examples/first_steps.sh ended well' || problems=1
exit $problems
