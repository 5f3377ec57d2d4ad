-- Keys of anniversaries, and indexes over them.
SET datestyle = ISO;

SELECT calendar_anniversary_key('hebrew', date '2024-02-19'), calendar_anniversary_key('iso', date '2024-02-29');
SELECT calendar_anniversary_keys('iso', date '2023-02-27', date '2023-03-02'), calendar_anniversary_keys('iso', date '2024-02-27', date '2024-03-02'),
       calendar_anniversary_keys('iso', date '2023-02-27', date '2023-03-02', 'exact');
SELECT calendar_anniversary_keys('hebrew', date '2025-03-10', date '2025-03-11'), calendar_anniversary_keys('hebrew', date '2025-03-10', date '2025-03-11', 'exact');
SELECT array_length(calendar_anniversary_keys('coptic', date '1000-01-01', date '3000-12-31', 'exact'), 1);

CREATE TABLE people (id integer PRIMARY KEY, born date NOT NULL);
INSERT INTO people SELECT id, date '1925-01-01' + (id * 7919) % 36000 FROM generate_series(1, 20000) AS id;
CREATE INDEX people_hebrew ON people (calendar_anniversary_key('hebrew', born));
CREATE INDEX people_chinese_year ON people (calendar_part('year', 'chinese', born));
ANALYZE people;

-- All people whose Hebrew birthday is next week.
EXPLAIN (COSTS off)
SELECT id FROM people WHERE calendar_anniversary_key('hebrew', born) = ANY (calendar_anniversary_keys('hebrew', current_date, current_date + 6));
-- The plan of a subquery is written in several ways by several versions.
CREATE FUNCTION uses_index(query text, name text) RETURNS boolean LANGUAGE plpgsql AS $$
DECLARE
    line text;
BEGIN
    FOR line IN EXECUTE 'EXPLAIN ' || query LOOP
        IF line LIKE '% on ' || name || ' %' OR line LIKE '% using ' || name || ' %' THEN
            RETURN true;
        END IF;
    END LOOP;
    RETURN false;
END
$$;
SELECT uses_index($$
    SELECT id FROM people
     WHERE calendar_anniversary_key('hebrew', born) = ANY ((SELECT calendar_anniversary_keys('hebrew', current_date, current_date + 6))::integer[])
$$, 'people_hebrew');
EXPLAIN (COSTS off) SELECT id FROM people WHERE calendar_part('year', 'chinese', born) = 1984;

-- The index finds those, and only those, whose anniversaries a list has.
CREATE TEMP TABLE weeks AS SELECT d, d + (d - date '2000-01-01') % 9 AS last FROM (SELECT date '2023-01-01' + 29 * n FROM generate_series(1, 60) AS n) AS it(d);
CREATE TEMP TABLE celebrated AS
    SELECT weeks.d, id FROM weeks, people WHERE calendar_anniversary_key('hebrew', born) = ANY (calendar_anniversary_keys('hebrew', d, last));
SELECT count(*) > 10000 AS celebrated FROM celebrated;
SELECT count(*) AS differing
  FROM weeks CROSS JOIN people
  LEFT JOIN celebrated USING (d, id),
       LATERAL (SELECT count(*) > 0 AS is_listed
                  FROM calendar_anniversaries('hebrew', calendar_month_code('hebrew', born), calendar_part('day', 'hebrew', born), d, last, 'constrain')
                OFFSET 0) AS list
 WHERE id <= 300 AND is_listed <> (celebrated.id IS NOT NULL);
-- The same in every calendar, exactly and with the nearest days.
WITH asked AS MATERIALIZED (
    SELECT name, leaping, d, last, calendar_anniversary_keys(name, d, last, leaping) AS keys
      FROM calendars, weeks, unnest(ARRAY['exact', 'constrain']) AS leaping WHERE d < '2026-01-01'
)
SELECT leaping, count(*) FILTER (WHERE is_listed) > 50 AS found, count(*) FILTER (WHERE is_listed <> (calendar_anniversary_key(name, born) = ANY (keys))) AS differing
  FROM asked, people,
       LATERAL (SELECT count(*) > 0 AS is_listed
                  FROM calendar_anniversaries(name, calendar_month_code(name, born), calendar_part('day', name, born), d, last, leaping) OFFSET 0) AS list
 WHERE id <= 12 GROUP BY leaping ORDER BY leaping;

-- A column of calendars, and an index over it.
CREATE TABLE born_in (id integer PRIMARY KEY, calendar calendar_name, born date);
INSERT INTO born_in SELECT row_number() OVER (ORDER BY name), name, date '2000-01-01' FROM calendars;
CREATE INDEX born_in_calendar ON born_in (calendar, calendar_anniversary_key(calendar, born));
SET enable_seqscan = off;
EXPLAIN (COSTS off) SELECT id FROM born_in WHERE calendar = 'coptic' AND calendar_anniversary_key(calendar, born) = 4022;
SELECT id, calendar FROM born_in WHERE calendar = 'coptic' AND calendar_anniversary_key(calendar, born) = 4022;
CREATE INDEX born_in_hash ON born_in USING hash (calendar);
EXPLAIN (COSTS off) SELECT id FROM born_in WHERE calendar = 'coptic';
RESET enable_seqscan;
-- An infinite date has no key.
SELECT refusal($$INSERT INTO people VALUES (0, 'infinity')$$);
