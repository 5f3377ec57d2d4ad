-- The extension, what it has, and what the other tests share.
CREATE EXTENSION icu_calendar;

-- Every function is immutable, strict and parallel safe.
SELECT count(*) AS functions, count(*) FILTER (WHERE provolatile = 'i' AND proisstrict AND proparallel = 's') AS as_promised
  FROM pg_proc JOIN pg_depend ON pg_depend.classid = 'pg_proc'::regclass AND pg_depend.objid = pg_proc.oid
 WHERE refclassid = 'pg_extension'::regclass AND refobjid = (SELECT oid FROM pg_extension WHERE extname = 'icu_calendar');

-- The table of calendars has the codes, and each name is read as its code.
SELECT count(*), count(DISTINCT name), min(code), max(code) FROM calendars;
SELECT name, eras, months, published FROM calendars ORDER BY name;
SELECT name FROM calendars WHERE name = 'hebrew';
-- Names are read and written in the binary format, too.
CREATE TABLE names (name calendar_name);
\copy (SELECT name FROM calendars) TO 'results/names.bin' WITH (FORMAT binary)
\copy names FROM 'results/names.bin' WITH (FORMAT binary)
SELECT count(*) FROM calendars JOIN names USING (name);
SELECT count(*) FROM calendars a JOIN calendars b USING (name);

-- Runs a statement, and returns its error: the SQLSTATE, the message, the detail and the hint.
CREATE FUNCTION refusal(statement text) RETURNS text LANGUAGE plpgsql AS $$
DECLARE
    found text;
    message text;
    detail text;
    hint text;
BEGIN
    EXECUTE statement INTO found;
    RETURN format('none: %s', found);
EXCEPTION WHEN query_canceled OR OTHERS THEN
    GET STACKED DIAGNOSTICS message = MESSAGE_TEXT, detail = PG_EXCEPTION_DETAIL, hint = PG_EXCEPTION_HINT;
    RETURN concat_ws(' | ', SQLSTATE, message, nullif(detail, ''), nullif(hint, ''));
END
$$;

-- The day number of a date, and the date of one.
CREATE FUNCTION day_number(d date) RETURNS bigint LANGUAGE sql IMMUTABLE AS 'SELECT (d - date ''2000-01-01'')::bigint + 730120';
CREATE FUNCTION date_of(day_number bigint) RETURNS date LANGUAGE sql IMMUTABLE AS 'SELECT date ''2000-01-01'' + (day_number - 730120)::integer';
