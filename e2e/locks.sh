# lock_database FILE: another program takes SQLite's locks on the database, and keeps them until unlock_database. It calls python3.
lock_database() {
  rm -f keeper told
  mkfifo keeper
  python3 -c '
import fcntl, sys
file = open(sys.argv[1], "r+b")
fcntl.lockf(file, fcntl.LOCK_EX, 512, 1 << 30)
print("locked", flush=True)
sys.stdin.read()' "$1" < keeper > told &
  locking=$!
  exec 7> keeper
  for _ in $(seq 100); do [ -s told ] && break; sleep 0.05; done
}

unlock_database() {
  exec 7>&-
  wait "$locking"
  rm -f keeper told
}
