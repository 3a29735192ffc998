#!/bin/sh
# A first quarter of an hour with `solr_split serve`: documents are added, read, changed and searched, the shard is split, and the status
# shows its two halves. It starts the server on a port of this machine, shows each curl line with its answer, and stops the server at the
# end. From the top of the repository:
#
#     (cd crates/solr_split && rt run -- script < /dev/null)     # proves and builds crates/solr_split/out/solr_split
#     examples/first_steps.sh
#
# PROGRAM names another program, and PORT another port than 8983.
set -eu
program=$(realpath "${PROGRAM:-$(dirname "$0")/../crates/solr_split/out/solr_split}")
port=${PORT:-8983}
solr=http://127.0.0.1:$port/solr

folder=$(mktemp -d)
cd "$folder"
"$program" serve --port "$port" --workers 4 > listening &
server=$!
trap 'kill "$server" 2> /dev/null || true; rm -rf "$folder"' EXIT
tries=0
until grep -q listening listening || [ $tries -ge 50 ] || ! kill -0 "$server" 2> /dev/null; do
  sleep 0.2
  tries=$((tries + 1))
done
grep -q listening listening || { echo "$program does not listen at port $port" >&2; exit 1; }

say() { printf '\n# %s\n' "$1"; }
run() {
  printf '$ curl'
  for word in "$@"; do
    case $word in
      -*) printf ' %s' "$word" ;;
      *) printf " '%s'" "$word" ;;
    esac
  done
  printf '\n'
  curl -sS "$@"
  echo
}

say 'Add two books, and have their versions told.'
run "$solr/docs/update?versions=true" -H 'Content-Type: application/json' -d '[
  {"id": "book1", "title_t": "The Way of Kings", "author_s": "Brandon Sanderson", "copies_i": 3},
  {"id": "book2", "title_t": "The Blade Itself", "author_s": "Joe Abercrombie", "copies_i": 1}]'

say 'Read one at once: a realtime get needs no commit.'
run "$solr/docs/get?id=book1"

say 'Change fields: an atomic update.'
run "$solr/docs/update" -H 'Content-Type: application/json' -d '[{"id": "book1", "copies_i": {"inc": 2}, "genres_ss": {"add": ["fantasy"]}}]'
run "$solr/docs/get?id=book1"

say 'Change it only if nobody else did: a version that is not the last one is a conflict.'
run "$solr/docs/update" -H 'Content-Type: application/json' -d '[{"id": "book1", "_version_": 1234567890, "copies_i": {"set": 0}}]'
run "$solr/docs/update" -H 'Content-Type: application/json' -d '[{"id": "book1", "_version_": -1, "title_t": "only if there is no book1"}]'

say 'A search shows what was committed: nothing yet, and then what was asked for, book1 and book3.'
run "$solr/docs/select?q=*:*"
run "$solr/docs/update?commit=true" -H 'Content-Type: application/json' -d '[{"id": "book3", "title_t": "The Final Empire", "author_s": "Brandon Sanderson"}]'
run "$solr/docs/select?q=title_t:the%20AND%20NOT%20title_t:blade&fq=author_s:%22Brandon%20Sanderson%22&rows=5"

say 'Split the shard in two. Updates, gets and searches go on meanwhile.'
run "$solr/admin/collections?action=SPLITSHARD&collection=docs&shard=shard1"

say 'The status: the halves are active, and the parent is inactive.'
run "$solr/admin/collections?action=CLUSTERSTATUS"

say 'The same search finds the same documents.'
run "$solr/docs/select?q=title_t:the%20AND%20NOT%20title_t:blade&fq=author_s:%22Brandon%20Sanderson%22&rows=5"

say 'The parent can go.'
run "$solr/admin/collections?action=DELETESHARD&collection=docs&shard=shard1"
run "$solr/docs/get?ids=book1,book2,book3"
