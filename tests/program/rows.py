"""The rows of a ledger's file that no server has open."""
import sqlite3

from ends import copied

# The version isn't compared: what a file's tables hold is the same in each.
COLUMNS = {
    "setting": "id, minutes, cap, arrivals",
    "answer": "n, host, run, seq, request, reply",
    "trans": "host, run, txn, login, moment, day, held, settled, closed",
    "usage": "login, day, settled, reserved",
    "ceiling": "login, day, cap",
    "rule": "id, bytes",
    "retired": "host, run",
}
KEYS = {
    "setting": "id",
    "answer": "n",
    "trans": "host, run, txn",
    "usage": "login, day",
    "ceiling": "login, day",
    "rule": "id",
    "retired": "host",
}


def rows_in(path, tables=("setting", "answer", "trans", "usage", "ceiling")):
    """The rows of these tables, each table's in the order of its key."""
    return answers_of(
        path,
        {table: f"SELECT {COLUMNS[table]} FROM {table} ORDER BY {KEYS[table]}" for table in tables},
    )


def answers_of(path, queries):
    """What a file answers these queries. A copy is read, so that the file stays as it is."""
    database = sqlite3.connect(copied(path, f"{path}.read"))
    found = {name: database.execute(query).fetchall() for name, query in queries.items()}
    database.close()
    return found


def same_rows(checks, what, path, books):
    """A case for each table: its rows are these."""
    wanted = books.rows()
    found = rows_in(path, wanted)
    for table in wanted:
        other = [pair for pair in zip(found[table], wanted[table]) if pair[0] != pair[1]]
        came = len(found[table]), [row for row, _ in other[:2]]
        checks.equal(f"{what}: rows of {table}", came, (len(wanted[table]), []))
