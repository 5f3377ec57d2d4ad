-- The program over memory.
SET datestyle = ISO;

SELECT calspan('span', 'span iso hebrew none none none from year=2024 month=M03 day=1 to year=2024 month=M03 day=1');
SELECT calspan('convert hebrew iso reject', E'5784-M05L-10\tDana\n5783-M05L-10\tAvi\n\nam 5784-6-031\n');
SELECT count(*) FROM calspan('span');
-- Own rows of years stand before the requests.
SELECT calspan('span', E'row persian 1502\nspan persian iso none none none from year=1503 month=M01 day=1 to year=1503 month=M01 day=1');
SELECT refusal(format('SELECT %s', call)) FROM unnest(ARRAY[
    'calspan(''gen 10'')',
    'calspan(''span iso'')',
    'calspan(''spans'')',
    'calspan('''')',
    'calspan(''convert iso klingon reject'')',
    'calspan(''recur iso iso days 1 skip -365242499 365242134 year=2024 month=M01 day=1'')',
    'calspan(''span'', E''row china 2024\n'')',
    'calspan(''span'', repeat(E''x\n'', 524289))'
]) AS call;
SELECT count(*) FROM calspan('span', repeat(E'x\n', 524288));

-- All cases, each file as one input; and with published rows the functions say what the program says.
SELECT name, count(*) > 300 AS answers
  FROM (SELECT name, string_agg(request, E'\n' ORDER BY line) AS input FROM cases GROUP BY name) AS inputs, calspan('span', input) AS answer
 GROUP BY name ORDER BY name;
WITH got AS (
    SELECT name, n AS line, answer
      FROM (SELECT name, string_agg(request, E'\n' ORDER BY line) AS input FROM cases GROUP BY name) AS inputs,
           calspan('span', input) WITH ORDINALITY AS it(answer, n)
)
SELECT count(*) AS differing FROM got FULL JOIN cases USING (name, line) WHERE got.answer IS DISTINCT FROM cases.answer;


-- With the rows of rows/ the program has the published years that the functions have.
CREATE TABLE row_lines (name text, line integer, words text);
\copy row_lines FROM PROGRAM './cases.sh rows'
CREATE TABLE published AS
    SELECT row_number() OVER () AS n, name::text AS calendar, t::date AS d, to_char(t, '"year="FMYYYY "month=M"MM "day="FMDD') AS fields
      FROM calendars, generate_series(date '1890-01-01', date '2110-12-31', interval '101 days') AS it(t)
     WHERE name IN ('chinese', 'dangi', 'islamic-umalqura', 'persian');
SELECT count(*) AS asked, count(*) FILTER (WHERE split_part(answer, ' ', 3) IS DISTINCT FROM shown(calendar, d, published => true)) AS differing,
       count(*) FILTER (WHERE shown(calendar, d, published => true) <> shown(calendar, d)) > 400 AS others_than_computed
  FROM published
  JOIN calspan('span', (SELECT string_agg(words, E'\n' ORDER BY name, line) FROM row_lines) || E'\n' ||
                       (SELECT string_agg(format('span iso %s none none none from %s to %s', calendar, fields, fields), E'\n' ORDER BY n) FROM published))
       WITH ORDINALITY AS it(answer, n) USING (n);
