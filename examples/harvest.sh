#!/bin/sh
# Harvests over a store: a source is made and harvested, then its catalogue is broken, and the next harvest removes nothing.
cd "$(dirname "$0")" || exit 1
PORTAL_STORE="$(mktemp -d)/portal.db"
export PORTAL_STORE
echo '{"action":"harvest_source_create","as":"cyn","body":{"name":"region","url":"catalogue.nt","owner_org":"city"}}' | ../portal play
../portal harvest --source region --as cyn
echo '{"action":"harvest_source_update","as":"cyn","body":{"id":"region","url":"broken-catalogue.nt"}}' | ../portal play
../portal harvest --source region --as cyn
echo '{"action":"package_list"}' | ../portal play
