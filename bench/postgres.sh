# A PostgreSQL of one's own, for the scripts that measure osm2pgsql: it runs as the user of that name (it doesn't run as root), in the
# folder `cluster` of $work, with the settings that osm2pgsql's manual asks for a fast import.

postgres=$(ls -d /usr/lib/postgresql/*/bin 2>/dev/null | sort -V | tail -n 1)
connection=(-h "$work/cluster" -p 54329 -U postgres)
psql=(psql "${connection[@]}" -qAt)
osm2pgsql=(osm2pgsql -H "$work/cluster" -P 54329 -U postgres -d osm --hstore)

# as_postgres COMMAND..: runs it as that user, if this is root.
as_postgres() {
  if [ "$(id -u)" = 0 ]; then setpriv --reuid=postgres --regid=postgres --clear-groups "$@"; else "$@"; fi
}

# postgres_started: makes and starts it, with an empty database `osm`, and says whether that went well.
postgres_started() {
  there osm2pgsql && there psql || return 1
  [ -x "$postgres/initdb" ] || { echo "not measured: PostgreSQL isn't installed" >&2; return 1; }
  postgres_stopped
  mkdir cluster && chmod 755 "$work"
  [ "$(id -u)" != 0 ] || chown postgres cluster
  as_postgres "$postgres/initdb" -D cluster/data -A trust > said.txt 2>&1 &&
    as_postgres "$postgres/pg_ctl" -w -D cluster/data -l cluster/log -o "-p 54329 -k $work/cluster -c listen_addresses= -c fsync=on \
      -c shared_buffers=1GB -c maintenance_work_mem=1GB -c work_mem=50MB -c max_wal_size=10GB -c checkpoint_timeout=60min" start > said.txt 2>&1 &&
    "${psql[@]}" -c "CREATE DATABASE osm" postgres &&
    "${psql[@]}" -c "CREATE EXTENSION postgis; CREATE EXTENSION hstore" osm && return
  echo "not measured: PostgreSQL doesn't start" >&2
  tail -n 3 said.txt >&2
  return 1
}

# postgres_stopped: stops it, if it runs, and removes it.
postgres_stopped() {
  [ ! -e cluster/data/postmaster.pid ] || as_postgres "$postgres/pg_ctl" -D cluster/data -m immediate stop > said.txt 2>&1
  rm -rf cluster
}
