"""Records in PostgreSQL, by psycopg2 (Debian: python3-psycopg2): a `Store` for `lnlink.Channel`.

COMMIT answers once the transaction is on the server's disk, unless `synchronous_commit` is off: the store turns it on
for its connection.
"""

from __future__ import annotations

from threading import Lock

import psycopg2

from lnlink import Record

TABLES = """
CREATE TABLE IF NOT EXISTS records (channel bytea PRIMARY KEY, saved bytea NOT NULL);
CREATE TABLE IF NOT EXISTS secrets (
    channel bytea NOT NULL, number bigint NOT NULL, secret bytea NOT NULL, PRIMARY KEY (channel, number));
"""
SAVE = """
INSERT INTO records VALUES (%s, %s) ON CONFLICT (channel) DO UPDATE SET saved = excluded.saved
"""
KEEP = "INSERT INTO secrets VALUES (%s, %s, %s) ON CONFLICT DO NOTHING"


class PostgresStore:
    """The tables `records` and `secrets` of a database, by its address, as "host=/run/postgresql dbname=wallet"."""

    def __init__(self, address: str):
        self._lock = Lock()
        self._base = psycopg2.connect(address)
        with self._base, self._base.cursor() as cursor:
            cursor.execute(TABLES)
            cursor.execute("SET synchronous_commit = on")

    def save(self, record: Record) -> None:
        """Saves a record and its secrets in one transaction. psycopg2.Error where it can't."""
        with self._lock, self._base, self._base.cursor() as cursor:
            cursor.execute(SAVE, (record.channel, record.saved()))
            for number, secret in record.secrets:
                cursor.execute(KEEP, (record.channel, number, secret))

    def load(self, channel: bytes) -> bytes | None:
        """What was saved last of a channel."""
        with self._lock, self._base, self._base.cursor() as cursor:
            cursor.execute("SELECT saved FROM records WHERE channel = %s", (channel,))
            row = cursor.fetchone()
        return None if row is None else bytes(row[0])

    def secrets(self, channel: bytes) -> dict[int, bytes]:
        """The peer's secrets, by the number of the commitment that each revokes."""
        with self._lock, self._base, self._base.cursor() as cursor:
            cursor.execute("SELECT number, secret FROM secrets WHERE channel = %s ORDER BY number", (channel,))
            return {number: bytes(secret) for number, secret in cursor.fetchall()}

    def close(self) -> None:
        """Closes the connection."""
        self._base.close()
