-- Anniversaries, recurrences and holidays.
SET datestyle = ISO;

SELECT * FROM calendar_anniversaries('hebrew', 'M05L', 10, '2021-01-01', '2027-12-31') AS d;
SELECT * FROM calendar_anniversaries('chinese', 'M01', 1, '2023-01-01', '2025-12-31') AS d;
SELECT calendar_anniversaries('chinese', 'M01', 1, '2023-01-01', '2025-12-31', published => false) AS computed;
SELECT * FROM calendar_anniversaries('iso', 'M02', 29, '2021-01-01', '2025-12-31', 'constrain') AS d;
SELECT * FROM calendar_anniversaries('iso', 'M02', 30, '4713-01-01 BC', '999999-12-31') AS d;
SELECT * FROM calendar_recurrences('2024-01-31', 'iso', 'months', 1, '2024-01-01', '2024-05-31', 'constrain');
SELECT * FROM calendar_recurrences('2024-01-31', 'iso', 'months', 1, '2024-03-01', '2024-05-31');
SELECT * FROM calendar_recurrences('2024-03-01', 'hebrew', 'years', 1, '2026-01-01', '2029-12-31');
SELECT * FROM calendar_recurrences('2024-03-01', 'iso', 'weeks', 1000000000, '2026-01-01', '999999-12-31');
SELECT * FROM calendar_recurrences('2024-03-01', 'iso', 'years', 2147483647, '2024-01-01', '999999-12-31');
SELECT * FROM calendar_holidays(E'easter,Easter,gregorian,,0,\neaster,Pascha,julian,,0,\nweekday,Thanksgiving,gregorian,M11,4,thursday\n'
                                'fixed,Purim,hebrew,M06,14,constrain', '2024-01-01', '2024-12-31');
SELECT * FROM calendar_holidays(E'fixed,"Spring ""Festival""",chinese,M01,1,exact\r\n', '2023-01-01', '2023-12-31');
SELECT * FROM calendar_holidays(E'fixed,Spring Festival,chinese,M01,1,exact', '2023-01-01', '2023-12-31', published => false);
SELECT count(*) FROM calendar_holidays('', '2023-01-01', '2023-12-31');

-- Years, moves, and weeks that begin or end with a day; notes before the first rule.
SELECT * FROM calendar_holidays('fixed,Inauguration,iso,M01,20,exact,1957,2017,4,sunday+1', '2009-01-01', '2024-12-31');
SELECT * FROM calendar_holidays(E'# Sweden\n\nspan,Midsummer Eve,iso,M06,19,friday\r\nspan,Advent,iso,M11,27,sunday,2023\nspan,Buss,iso,M11,22,-wednesday\n',
                                '2022-06-01', '2023-12-31');
-- A move leads over a year's end, into the window or out of it.
SELECT * FROM calendar_holidays('fixed,New Year,iso,M01,1,exact,,,,saturday-1 sunday+1', '2021-12-31', '2023-01-02');
SELECT * FROM calendar_holidays('fixed,New Year,iso,M01,1,exact,,,,saturday-1 sunday+1', '2022-01-01', '2023-01-01');

-- Weeks and moves over the ends of years, by their definition: the last of a weekday up to the new year, and the new year six days earlier.
WITH years AS (
    SELECT name, calendar_date(name, calendar_part('year', name, '2024-03-01'), 1, 1) AS new_year FROM calendars
), asked AS (
    SELECT name, new_year, dow, ('{sunday,monday,tuesday,wednesday,thursday,friday,saturday}'::text[])[dow + 1] AS weekday,
           extract(dow FROM new_year)::integer AS own, new_year + n AS day
      FROM years, generate_series(0, 6) AS dow, generate_series(-14, 14) AS n
)
SELECT count(*), count(*) FILTER (WHERE span <> (day = new_year - (own - dow + 7) % 7)) AS other_weeks,
       count(*) FILTER (WHERE fixed <> (day = new_year - CASE WHEN own = dow THEN 6 ELSE 0 END)) AS other_moves
  FROM asked,
       LATERAL (SELECT count(*) = 1 FROM calendar_holidays(format('span,Week,%s,M01,1,-%s', name, weekday), day, day)) AS a(span),
       LATERAL (SELECT count(*) = 1 FROM calendar_holidays(format('fixed,New Year,%s,M01,1,exact,,,,%s-6', name, weekday), day, day)) AS b(fixed);

-- A list goes on only as far as it is read.
SELECT calendar_recurrences('2024-01-01', 'iso', 'days', 1, '2024-01-01', '999999-12-31') LIMIT 3;

-- The books of books/, against the days that other programs have.
CREATE TABLE book_lines (name text, line integer, words text);
CREATE TABLE holiday_lines (name text, line integer, words text);
\copy book_lines FROM PROGRAM './cases.sh books'
\copy holiday_lines FROM PROGRAM './cases.sh holidays'
CREATE TABLE books AS
    SELECT name, string_agg(words, E'\n' ORDER BY line) AS book FROM book_lines GROUP BY name;
CREATE TABLE wanted AS
    SELECT name, substring(words FROM 1 FOR 10)::date AS day, substring(words FROM 12) AS holiday FROM holiday_lines WHERE words !~ '^#';
CREATE TABLE listed AS
    SELECT books.name, it.day, it.name AS holiday, n
      FROM books
      JOIN (SELECT name, regexp_match(words, '^# Days of (\d{4}) to (\d{4}), ') AS years FROM holiday_lines WHERE line = 1) AS heads USING (name),
           calendar_holidays(book, (years[1] || '-01-01')::date, (years[2] || '-12-31')::date) WITH ORDINALITY AS it(day, name, n);
SELECT count(DISTINCT name) > 60 AS books, count(*) > 18000 AS days FROM listed;
SELECT name FROM books EXCEPT SELECT name FROM listed;
(TABLE wanted EXCEPT ALL SELECT name, day, holiday FROM listed) UNION ALL (SELECT name, day, holiday FROM listed EXCEPT ALL TABLE wanted);
SELECT count(*) AS not_rising FROM (SELECT day < lag(day) OVER (PARTITION BY name ORDER BY n) AS falls FROM listed) AS it WHERE falls;

-- The lists of cases/lists.jsonl that have no rows, against what another program lists.
CREATE TABLE list_lines (name text, line integer, words text);
\copy list_lines FROM PROGRAM './cases.sh lists'
CREATE TABLE lists AS
    SELECT line, ARRAY(SELECT json_array_elements_text(it->'words')) AS word, it->>'source' AS source, rtrim(it->>'out', E'\n') AS out,
           (it->>'status')::integer AS status
      FROM list_lines, LATERAL (SELECT words::json AS it) AS json
     WHERE position('\u0000' IN words) = 0;
DELETE FROM lists WHERE status NOT IN (0, 1) OR word[1] <> 'holidays' AND source <> '';

-- The type date begins in 4713 BC, so earlier days can't be asked for, and later ones than the last are refused by another name.
CREATE FUNCTION is_far(day_number text) RETURNS boolean LANGUAGE sql AS 'SELECT day_number::bigint NOT BETWEEN -1721425 AND 365242134';
DELETE FROM lists WHERE CASE word[1] WHEN 'holidays' THEN is_far(word[2]) OR is_far(word[3]) ELSE is_far(word[7]) OR is_far(word[8]) END;

-- What this extension lists: the numbers of the days, with their indexes or names.
CREATE FUNCTION list_of(word text[], source text) RETURNS text LANGUAGE plpgsql AS $$
DECLARE
    start record;
    found text;
    detail text;
BEGIN
    CASE word[1]
    WHEN 'anniversary' THEN
        SELECT string_agg(format('@%s', day_number(d)), E'\n' ORDER BY n) INTO found
          FROM calendar_anniversaries(word[2]::calendar_name, word[5], word[6]::integer, date_of(word[7]::bigint), date_of(word[8]::bigint), word[4],
                                      published => false) WITH ORDINALITY AS it(d, n);
    WHEN 'recur' THEN
        -- The program looks at the window and the step before it looks at the fields.
        PERFORM calendar_recurrences('2024-01-01', word[2]::calendar_name, word[4], word[5]::integer, date_of(word[7]::bigint), date_of(word[8]::bigint),
                                     word[6]) LIMIT 1;
        start := named(word[2], array_to_string(word[9:], ' '), NULL, NULL);
        IF start.cause IS NOT NULL THEN
            RETURN 'err ' || start.cause;
        END IF;
        SELECT string_agg(format('%s @%s', index, day_number(day)), E'\n' ORDER BY n) INTO found
          FROM calendar_recurrences(start.d, word[2]::calendar_name, word[4], word[5]::integer, date_of(word[7]::bigint), date_of(word[8]::bigint), word[6],
                                    published => false) WITH ORDINALITY AS it(index, day, n);
    ELSE
        SELECT string_agg(format('@%s %s', day_number(day), name), E'\n' ORDER BY n) INTO found
          FROM calendar_holidays(source, date_of(word[2]::bigint), date_of(word[3]::bigint), published => false) WITH ORDINALITY AS it(day, name, n);
    END CASE;
    RETURN coalesce(found, '');
EXCEPTION WHEN data_exception THEN
    GET STACKED DIAGNOSTICS detail = PG_EXCEPTION_DETAIL;
    RETURN 'err ' || replace(substring(detail FROM '^Cause: (.*)\.$'), 'InvalidRecord', 'record');
END
$$;
CREATE TABLE list_answers AS
    SELECT line, word, status, list_of(word, source) AS got,
           CASE WHEN status = 1 THEN out
                WHEN word[1] = 'anniversary' THEN regexp_replace(out, '^\S*(@-?\d+) .*$', '\1', 'gn')
                WHEN word[1] = 'recur' THEN regexp_replace(out, '^(\d+) \S*(@-?\d+) .*$', '\1 \2', 'gn')
                ELSE regexp_replace(out, '^\S*(@-?\d+ )', '\1', 'gn') END AS wanted
      FROM lists;
-- A recurrence of a date before 4713 BC.
DELETE FROM list_answers WHERE got = 'err Overflow' AND status = 0;
SELECT word[1] AS list, status, count(*) > 50 AS compared, count(*) FILTER (WHERE got IS DISTINCT FROM wanted) AS differing
  FROM list_answers GROUP BY 1, 2 ORDER BY 1, 2;
