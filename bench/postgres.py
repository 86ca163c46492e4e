#!/usr/bin/env python3
"""Times PostgreSQL's nested full outer joins on the benchmark's chain of eight tables, in a server of its own that is gone afterwards.

usage: postgres.py PEER-BENCH      `PEER-BENCH sql` prints the tables and, behind the line '-- query', the query
Where no server is installed it says so. The time is that of the query with its rows fetched, the best of nine.
"""
import glob
import os
import re
import shutil
import subprocess
import sys
import tempfile


def server_folder():
    """Where the newest server's programs are, or None."""
    found = sorted(glob.glob("/usr/lib/postgresql/*/bin/initdb"))
    return os.path.dirname(found[-1]) if found else None


def run(words, **more):
    """Runs a program, as the database's own user where this is root: the server refuses root."""
    if os.geteuid() == 0:
        words = ["runuser", "-u", "postgres", "--", *words]
    return subprocess.run(words, check=True, stdout=subprocess.PIPE, stderr=subprocess.STDOUT, text=True, **more).stdout


def timed(psql, query):
    """The rows of the query, and the best of nine times in seconds."""
    rows = int(run([*psql, "-Atc", f"select count(*) from ({query}) all_rows"]))
    script = "\\timing on\n\\o /dev/null\n" + f"{query};\n" * 9
    times = re.findall(r"Time: ([0-9.]+) ms", run([*psql, "-q"], input=script))
    return rows, min(map(float, times)) / 1000


def main():
    folder = server_folder()
    if folder is None:
        print("PostgreSQL is not installed: nothing to compare with")
        return
    tables, query = subprocess.run([sys.argv[1], "sql"], check=True, stdout=subprocess.PIPE, text=True).stdout.split("-- query\n")
    home = tempfile.mkdtemp()
    os.chmod(home, 0o777)
    data = os.path.join(home, "data")
    psql = ["psql", "-h", home, "-d", "postgres", "-v", "ON_ERROR_STOP=1"]
    try:
        run([f"{folder}/initdb", "-D", data, "-A", "trust"])
        run([f"{folder}/pg_ctl", "-D", data, "-w", "-l", f"{home}/log", "-o", f"-c listen_addresses= -c unix_socket_directories={home}", "start"])
        try:
            run([*psql, "-q"], input=tables)
            rows, seconds = timed(psql, query.strip())
            print(f"PostgreSQL, nested full outer joins of the chain  {rows} rows  {seconds:.6f} s")
        finally:
            run([f"{folder}/pg_ctl", "-D", data, "-w", "-m", "immediate", "stop"])
    finally:
        shutil.rmtree(home, ignore_errors=True)


main()
