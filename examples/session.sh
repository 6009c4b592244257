#!/bin/sh
# A first session: a server over a store makes a dataset, `load` fills a table of it, and a second server on the same store finds the
# rows. Needs curl. The port 5000 has to be free.
cd "$(dirname "$0")/.." || exit 1
PORTAL_STORE="$(mktemp -d)/portal.db"
export PORTAL_STORE
./portal serve --portal examples/portal.toml --links 1 &
curl --retry 9 --retry-connrefused -H 'Authorization: token-ann' \
  -d '{"name":"trees","owner_org":"city","resources":[{"name":"trees"}]}' http://127.0.0.1:5000/api/3/action/package_create
wait
./portal load --portal examples/portal.toml --as ann --resource trees.1 --schema examples/trees.schema.json < examples/trees.csv
./portal serve --portal examples/portal.toml --links 1 &
curl --retry 9 --retry-connrefused 'http://127.0.0.1:5000/api/3/action/datastore_search?resource_id=trees.1&limit=2'
wait
