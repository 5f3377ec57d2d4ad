-- The examples of README.md. Each line of the result is one that differs.
SET datestyle = ISO;
CREATE TABLE examples (example text, result text);
\copy examples FROM PROGRAM './cases.sh examples'
SELECT count(*) FROM examples;
CREATE FUNCTION result_of(example text) RETURNS text LANGUAGE plpgsql AS $$
DECLARE
    found text;
BEGIN
    EXECUTE format('SELECT string_agg(it::text, ''`, `'') FROM (SELECT %s FROM (SELECT date ''2024-03-01'') AS now(d)) AS rows(it)', example) INTO found;
    RETURN found;
END
$$;
SELECT example, result, result_of(example) AS got FROM examples WHERE result_of(example) IS DISTINCT FROM result;
-- Every function of the extension has an example, but for those of types and operators.
SELECT DISTINCT proname FROM pg_proc JOIN pg_depend ON pg_depend.classid = 'pg_proc'::regclass AND pg_depend.objid = pg_proc.oid
 WHERE refclassid = 'pg_extension'::regclass AND refobjid = (SELECT oid FROM pg_extension WHERE extname = 'icu_calendar')
   AND proname !~ '^calendar_name_' AND NOT EXISTS (SELECT FROM examples WHERE starts_with(example, proname || '('));
