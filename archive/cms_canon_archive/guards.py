"""What PostgreSQL itself refuses workers that are not the owner of the tables, whatever they send: archive/docs/ARCHIVE.md has the rights of their role.

A worker is the row of `workers` that its session inserted and whose number it holds a lock on. It may take a part that is to be done, or take
back one whose worker has no session any more; it may write rows of the parts that it holds, and add what lies right inside a folder that it
holds. The rows of a file go together, and what belongs to a place is sent by who sent the place. So all that is stored of a file was sent by the
account that the row of its worker names. No transaction may see the store as it was: a part could be another worker's by now.
"""

from __future__ import annotations

import sqlalchemy as sa

from .tables import MOST_CHUNKS, MOST_TRIED, OF_PARTS

WORKER_LOCK = 5652  # the first number of the lock of a worker; the second is its own
_ENDING = 69  # characters at the end of a path that was cut, as `text_of` and a slash have them
_SETTINGS = "SET search_path = {schema}, pg_temp"  # or a table of the same name in a schema of the worker would be taken
_BY_INDEX = "SET enable_seqscan = off SET enable_hashjoin = off SET enable_mergejoin = off"  # also in a session that began when there were few rows
_IS_OWNER = "pg_has_role(session_user, (SELECT relowner FROM pg_class WHERE oid = TG_RELID), 'USAGE')"

_FUNCTIONS = """
CREATE OR REPLACE FUNCTION archive_locked() RETURNS TABLE (id bigint, pid integer) LANGUAGE sql STABLE {settings} AS $$
    SELECT workers.id, pid FROM pg_locks JOIN workers ON workers.id = objid::bigint AND workers.backend = pid
        WHERE locktype = 'advisory' AND classid = {lock} AND objsubid = 2 AND granted
        AND database = (SELECT oid FROM pg_database WHERE datname = current_database())
$$;
CREATE OR REPLACE FUNCTION archive_held() RETURNS SETOF bigint LANGUAGE sql STABLE {settings} AS $$
    SELECT workers.id FROM archive_locked() AS locked JOIN workers ON workers.id = locked.id
        WHERE locked.pid = pg_backend_pid() AND workers.backend = pg_backend_pid() AND workers.account = session_user
            AND current_setting('transaction_isolation') = 'read committed'
$$;
CREATE OR REPLACE FUNCTION archive_rows_are_held() RETURNS trigger LANGUAGE plpgsql {settings} {by_index} AS $$
DECLARE
    held bigint[];
BEGIN
    IF {is_owner} OR NOT EXISTS (SELECT FROM sent) THEN
        RETURN NULL;
    END IF;
    held := ARRAY(SELECT archive_held());
    PERFORM FROM parts WHERE id IN (SELECT part FROM sent) AND state = 1 AND holder = ANY (held) FOR UPDATE;
    IF EXISTS (
        SELECT FROM (SELECT DISTINCT part, file <> '' AS is_named FROM sent) AS told
            LEFT JOIN parts ON parts.id = told.part AND parts.state = 1 AND parts.holder = ANY (held) AND NOT (parts.name <> '' AND is_named)
            WHERE parts.id IS NULL
    ) THEN
        RAISE EXCEPTION 'rows of a part that this worker does not hold' USING ERRCODE = '42501';
    END IF;
    IF TG_OP = 'DELETE' AND EXISTS (
        SELECT FROM (SELECT DISTINCT part, file FROM sent) AS told JOIN places USING (part, file) WHERE (places.worker = ANY (held)) IS NOT TRUE
    ) OR TG_OP = 'INSERT' AND TG_TABLE_NAME <> 'places' AND EXISTS (
        SELECT FROM (SELECT DISTINCT part, file, member FROM sent) AS told LEFT JOIN places USING (part, file, member)
            WHERE (places.worker = ANY (held)) IS NOT TRUE
    ) THEN
        RAISE EXCEPTION 'rows of a file that this worker did not store' USING ERRCODE = '42501';
    END IF;
    RETURN NULL;
END $$;
CREATE OR REPLACE FUNCTION archive_rows_are_signed() RETURNS trigger LANGUAGE plpgsql {settings} AS $$
BEGIN
    IF NOT {is_owner} AND EXISTS (SELECT FROM (SELECT DISTINCT worker FROM sent) AS told WHERE worker IS NULL OR worker NOT IN (SELECT archive_held())) THEN
        RAISE EXCEPTION 'rows under the number of another worker' USING ERRCODE = '42501';
    END IF;
    RETURN NULL;
END $$;
CREATE OR REPLACE FUNCTION archive_parts_are_inside() RETURNS trigger LANGUAGE plpgsql {settings} AS $$
BEGIN
    IF NOT {is_owner} AND EXISTS (
        SELECT FROM (SELECT sent.*, coalesce(whole, path) AS place FROM sent) AS told WHERE state <> 0 OR is_stored OR holder IS NOT NULL OR chunks > {chunks}
        OR name IN ('.', '..') OR strpos(name, '/') > 0 OR whole IS NOT NULL AND NOT (starts_with(whole, left(path, length(path) - {ending}))
            AND right(path, {ending}) = '\\...' || encode(sha256(convert_to(rtrim(whole, '/'), 'UTF8')), 'hex') || '/') OR NOT EXISTS (
            SELECT FROM (SELECT parts.*, coalesce(whole, path) AS place FROM parts WHERE state = 1 AND name = '' AND holder IN (SELECT archive_held())) AS own
                WHERE own.top = told.top AND own.anew = told.anew AND own.verifies = told.verifies
                AND own.settings IS NOT DISTINCT FROM told.settings
                AND (own.place = told.place AND own.path = told.path AND (told.name <> '' OR told.chunk > 0)
                OR told.name = '' AND told.chunk = 0 AND starts_with(told.place, own.place)
                    AND substr(told.place, length(own.place) + 1) ~ '^[^/]+/$' AND substr(told.place, length(own.place) + 1) NOT IN ('./', '../'))
        )
    ) THEN
        RAISE EXCEPTION 'a part that is not in a folder which this worker holds' USING ERRCODE = '42501';
    END IF;
    RETURN NULL;
END $$;
CREATE OR REPLACE FUNCTION archive_parts_are_taken() RETURNS trigger LANGUAGE plpgsql {settings} AS $$
BEGIN
    IF NOT {is_owner} AND EXISTS (
        SELECT FROM sent JOIN was ON was.id = sent.id WHERE sent.chunks > {chunks} OR sent.tries NOT BETWEEN 0 AND {tried} OR (
            was.state = 1 AND was.holder IN (SELECT archive_held()) AND sent.holder = was.holder
            OR was.state = 0 AND sent.state = 1 AND sent.holder IN (SELECT archive_held())
            OR was.state = 1 AND sent.state = 0 AND was.holder IS NULL AND sent.holder IS NULL
            OR was.state = 1 AND sent.state = 0 AND sent.holder = was.holder
                AND was.holder NOT IN (SELECT id FROM archive_locked() WHERE pid <> pg_backend_pid())
            OR was.name = '' AND (sent.state = 0 OR was.state = 1 AND sent.state = 1 AND sent.again) AND sent.holder IS NOT DISTINCT FROM was.holder
                AND EXISTS (SELECT FROM parts WHERE path = was.path AND name = '' AND state = 1 AND holder IN (SELECT archive_held()))
        ) IS NOT TRUE
    ) THEN
        RAISE EXCEPTION 'a part that another worker holds' USING ERRCODE = '42501';
    END IF;
    RETURN NULL;
END $$;
CREATE OR REPLACE FUNCTION archive_parts_are_dropped() RETURNS trigger LANGUAGE plpgsql {settings} AS $$
BEGIN
    IF NOT {is_owner} AND EXISTS (SELECT FROM was WHERE (state = 1 AND holder IN (SELECT archive_held()) OR name = '' AND chunk > 0 AND EXISTS (
        SELECT FROM parts WHERE path = was.path AND name = '' AND chunk = 0 AND state = 1 AND holder IN (SELECT archive_held()))) IS NOT TRUE) THEN
        RAISE EXCEPTION 'a part that this worker does not hold' USING ERRCODE = '42501';
    END IF;
    RETURN NULL;
END $$;
"""
_TRIGGERS = """
CREATE TRIGGER signed AFTER INSERT ON places REFERENCING NEW TABLE AS sent FOR EACH STATEMENT EXECUTE FUNCTION archive_rows_are_signed();
CREATE TRIGGER inserted AFTER INSERT ON parts REFERENCING NEW TABLE AS sent FOR EACH STATEMENT EXECUTE FUNCTION archive_parts_are_inside();
CREATE TRIGGER updated AFTER UPDATE ON parts REFERENCING OLD TABLE AS was NEW TABLE AS sent
    FOR EACH STATEMENT EXECUTE FUNCTION archive_parts_are_taken();
CREATE TRIGGER deleted AFTER DELETE ON parts REFERENCING OLD TABLE AS was FOR EACH STATEMENT EXECUTE FUNCTION archive_parts_are_dropped();
ALTER TABLE workers ALTER COLUMN account SET DEFAULT session_user, ALTER COLUMN backend SET DEFAULT pg_backend_pid(),
    ALTER COLUMN address SET DEFAULT coalesce(host(inet_client_addr()), 'local');
ALTER TABLE workers ENABLE ROW LEVEL SECURITY;
CREATE POLICY seen ON workers FOR SELECT USING (true);
CREATE POLICY of_this_version ON workers FOR INSERT WITH CHECK (note IS NOT NULL OR (package, library, schema) IN (
    SELECT package.value, library.value, reads.value FROM about AS package, about AS library, about AS reads
        WHERE package.name = 'package' AND library.name = 'shared library' AND reads.name = 'reader'));
CREATE POLICY its_own ON workers FOR UPDATE USING (backend = pg_backend_pid() AND account = session_user);
"""
_OF_ROWS = """
CREATE TRIGGER inserted AFTER INSERT ON {table} REFERENCING NEW TABLE AS sent FOR EACH STATEMENT EXECUTE FUNCTION archive_rows_are_held();
CREATE TRIGGER deleted AFTER DELETE ON {table} REFERENCING OLD TABLE AS sent FOR EACH STATEMENT EXECUTE FUNCTION archive_rows_are_held();
"""


def put_up(connection: sa.engine.Connection, are_there: bool = False) -> None:
    """Has the database refuse what a worker may not do. The owner of the tables may do all.

    If the triggers are there, of an older release, they call the functions of this one from now on.
    """
    schema = connection.dialect.identifier_preparer.quote(str(connection.exec_driver_sql("SELECT current_schema()").scalar()))
    settings = _SETTINGS.format(schema=schema)
    numbers = {"lock": WORKER_LOCK, "ending": _ENDING, "chunks": MOST_CHUNKS, "tried": MOST_TRIED}
    functions = _FUNCTIONS.format(settings=settings, by_index=_BY_INDEX, is_owner=_IS_OWNER, **numbers)
    triggers = "" if are_there else _TRIGGERS + "".join(_OF_ROWS.format(table=it.name) for it in OF_PARTS)
    connection.exec_driver_sql((functions + triggers).replace("%", "%%"))
