-- The cases of cases/, whose answers another program made, answered by the functions of the extension. Years are computed, as in the cases.
SET datestyle = ISO;

CREATE TABLE cases (name text, line integer, request text, answer text);
\encoding LATIN1
\copy cases FROM PROGRAM './cases.sh requests'
\encoding UTF8
SELECT count(*) > 14000 AS loaded FROM cases;

-- The words of a request, and the words of each of its two dates.
CREATE TABLE asked AS
    SELECT name, line, answer, word[1]::text AS calendar, word[2]::text AS shown, nullif(word[3], 'none') AS unit,
           nullif(word[4], 'none') AS overflow, nullif(word[5], 'none') AS missing, word[6] AS first, word[7] AS second
      FROM cases, regexp_match(regexp_replace(request, E'\r$', ''), '^span (\S+) (\S+) (\S+) (\S+) (\S+) from(.*) to(.*)$') AS word
     WHERE answer NOT LIKE 'err line%';
-- A month and a month code are one argument here, so both can't be given.
DELETE FROM asked WHERE first ~ '\mmonth=' AND first ~ '\mmonth-code=' OR second ~ '\mmonth=' AND second ~ '\mmonth-code=';
SELECT count(*) > 13000 AS asked FROM asked;

CREATE FUNCTION field(fields text, key text) RETURNS text LANGUAGE sql IMMUTABLE AS $$
    SELECT substring(fields FROM '(?:^| )' || key || '=([^ ]*)')
$$;

-- The date of fields, or the cause why there is none.
CREATE FUNCTION named(calendar text, fields text, overflow text, missing text, OUT d date, OUT cause text) LANGUAGE plpgsql AS $$
DECLARE
    detail text;
BEGIN
    d := calendar_date(calendar::calendar_name,
                       ROW(field(fields, 'era'), field(fields, 'era-year'), field(fields, 'year'), NULL,
                           coalesce(field(fields, 'month'), field(fields, 'month-code')), field(fields, 'ordinal'),
                           field(fields, 'day'))::calendar_parts,
                       coalesce(overflow, 'reject'), coalesce(missing, 'reject'), published => false);
EXCEPTION WHEN data_exception THEN
    GET STACKED DIAGNOSTICS detail = PG_EXCEPTION_DETAIL;
    cause := substring(detail FROM '^Cause: (.*)\.$');
END
$$;

-- A date as answers have it.
CREATE FUNCTION shown(calendar text, d date, published boolean DEFAULT false) RETURNS text LANGUAGE sql AS $$
    SELECT format('%s/%s.%s/%s/%s@%s', year, coalesce(era, 'cycle'), coalesce(era_year, cyclic_year), month_code, lpad(day::text, 2, '0'), day_number(d))
      FROM calendar_parts(calendar::calendar_name, d, published)
$$;

CREATE TABLE answered AS
    SELECT asked.*, a.d AS a, a.cause AS a_cause, b.d AS b, b.cause AS b_cause
      FROM asked, named(calendar, first, overflow, missing) AS a, named(calendar, second, overflow, missing) AS b;
-- The type date begins in 4713 BC. Earlier dates are refused.
UPDATE answered SET a_cause = NULL, answer = 'early' WHERE a_cause = 'Overflow' AND substring(answer FROM '@(-?\d+)')::integer < -1721425;
UPDATE answered SET b_cause = NULL, answer = 'early' WHERE b_cause = 'Overflow' AND substring(answer FROM '@(?:.*)@.*@(-?\d+)')::integer < -1721425;
UPDATE answered SET answer = 'early' WHERE a IS NULL AND a_cause = 'Overflow' AND b_cause IS NOT NULL AND answer = 'err to ' || b_cause;

SELECT name, count(*) > 150 AS compared, count(*) FILTER (WHERE answer LIKE 'ok %') > 30 AS dates,
       count(*) FILTER (WHERE answer IS DISTINCT FROM
           CASE WHEN a_cause IS NOT NULL THEN 'err from ' || a_cause
                WHEN b_cause IS NOT NULL THEN 'err to ' || b_cause
                ELSE concat_ws(' ', 'ok', shown(calendar, a), shown(answered.shown, a), shown(calendar, b), shown(answered.shown, b),
                               calendar_until_text(a, b, calendar::calendar_name, coalesce(unit, 'days'), published => false)) END) AS differing
  FROM answered WHERE answer <> 'early' GROUP BY name ORDER BY name;
SELECT count(*) < 2500 AS early FROM answered WHERE answer = 'early';
