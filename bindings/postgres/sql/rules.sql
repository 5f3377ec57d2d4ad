-- Recurrence rules of iCalendar.
SET datestyle = ISO;

-- Examples of RFC 5545 and RFC 7529.
SELECT day FROM calendar_rrule('1996-11-05', 'iso', 'FREQ=YEARLY;INTERVAL=4;BYMONTH=11;BYDAY=TU;BYMONTHDAY=2,3,4,5,6,7,8', '1996-01-01', '2006-12-31');
SELECT day FROM calendar_rrule('1997-09-04', 'gregorian', 'FREQ=MONTHLY;COUNT=3;BYDAY=TU,WE,TH;BYSETPOS=3', '1997-01-01', '1999-12-31');
SELECT day FROM calendar_rrule('2013-02-10', 'chinese', 'RSCALE=CHINESE;FREQ=YEARLY', '2013-01-01', '2016-12-31');
SELECT * FROM calendar_rrule('2024-02-19', 'hebrew', 'FREQ=YEARLY;BYMONTH=5L;BYMONTHDAY=10;SKIP=FORWARD', '2025-01-01', '2026-12-31');
-- Letters of both cases.
SELECT count(*) FROM calendar_rrule('2024-01-01', 'iso', 'freq=daily;count=10', '2024-01-01', '999999-12-31');
-- A list goes on only as far as it is read.
SELECT calendar_rrule('2024-01-01', 'iso', 'FREQ=DAILY', '2024-01-01', '999999-12-31') LIMIT 3;
-- Windows are joined without a gap.
SELECT count(*), min(index), max(index), min(day), max(day) FROM calendar_rrule('2000-01-01', 'iso', 'FREQ=DAILY', '2000-01-01', '2199-12-31');

-- Rules in a book.
SELECT * FROM calendar_holidays(E'rule,Election Day,gregorian,,"FREQ=YEARLY;INTERVAL=4;BYMONTH=11;BYDAY=TU;BYMONTHDAY=2,3,4,5,6,7,8",1996-11-05,,2004\n'
                                'rule,Rosh Chodesh,hebrew,,"FREQ=MONTHLY;BYMONTHDAY=1,30",2000-10-01', '2000-10-01', '2012-12-31') LIMIT 4;
SELECT count(*) FROM calendar_holidays('rule,Election Day,iso,,FREQ=YEARLY;INTERVAL=4;BYMONTH=11;BYDAY=1TU,1996-11-05,1997,2004', '1990-01-01', '2012-12-31');
SELECT * FROM calendar_holidays('rule,New Year,chinese,,FREQ=YEARLY;BYMONTH=1;BYMONTHDAY=1,1900-01-01,2023,2024', '1990-01-01', '2100-12-31');
SELECT * FROM calendar_holidays('rule,New Year,chinese,,FREQ=YEARLY;BYMONTH=1;BYMONTHDAY=1,1900-01-01,2023,2024', '1990-01-01', '2100-12-31',
                                published => false);
SELECT count(*), min(day), max(day) FROM calendar_holidays('rule,Day,iso,,FREQ=DAILY,2000-01-01,2002,,4,sunday-6', '1990-01-01', '2007-12-31');

-- The cases of cases/rrule.jsonl that have no rows, against what another program lists.
CREATE TABLE rule_lines (name text, line integer, words text);
\copy rule_lines FROM PROGRAM './cases.sh rules'
CREATE TABLE rules AS
    SELECT line, word, cardinality(word) AS len, word[cardinality(word)] AS rule, it->>'source' AS source, rtrim(it->>'out', E'\n') AS out,
           (it->>'status')::integer AS status
      FROM rule_lines, LATERAL (SELECT words::json AS it) AS json, LATERAL (SELECT ARRAY(SELECT json_array_elements_text(it->'words'))) AS words(word)
     WHERE position('\u0000' IN words) = 0;
DELETE FROM rules WHERE status NOT IN (0, 1) OR source ~ '(^|\n)row' OR out LIKE 'err line%';
DELETE FROM rules WHERE is_far(word[4]) OR is_far(word[5]) OR CASE WHEN word[6] ~ '^-?\d+$' THEN is_far(word[6]) END;

-- The program looks at the window, then at the rule, and then at the fields of the start.
CREATE FUNCTION list_of_rule(word text[], len integer) RETURNS text LANGUAGE plpgsql AS $$
DECLARE
    start record;
    found text;
    detail text;
    calendar calendar_name := word[2];
    first date := date_of(word[4]::bigint);
    last date := date_of(word[5]::bigint);
BEGIN
    IF word[6] ~ '^-?\d+$' THEN
        SELECT date_of(word[6]::bigint) AS d, NULL AS cause INTO start;
    ELSE
        PERFORM calendar_rrule('2024-01-01', calendar, word[len], '2024-01-01', date '2024-01-01' + sign(last - first)::integer);
        start := named(word[2], array_to_string(word[6:len - 1], ' '), NULL, NULL);
    END IF;
    IF start.cause IS NOT NULL THEN
        RETURN 'err ' || start.cause;
    END IF;
    SELECT string_agg(format('%s @%s', index, day_number(day)), E'\n' ORDER BY n) INTO found
      FROM calendar_rrule(start.d, calendar, word[len], first, last, published => false) WITH ORDINALITY AS it(index, day, n);
    RETURN coalesce(found, '');
EXCEPTION WHEN data_exception THEN
    GET STACKED DIAGNOSTICS detail = PG_EXCEPTION_DETAIL;
    RETURN 'err ' || substring(detail FROM '^Cause: (.*)\.$');
END
$$;
CREATE TABLE rule_answers AS
    SELECT line, status, list_of_rule(word, len) AS got,
           CASE WHEN status = 1 THEN out ELSE regexp_replace(out, '^(\d+) .*(@-?\d+)$', '\1 \2', 'gn') END AS wanted
      FROM rules;
-- A start before 4713 BC.
DELETE FROM rule_answers WHERE got = 'err Overflow' AND status = 0;
SELECT status, count(*) > 150 AS compared, count(*) FILTER (WHERE got IS DISTINCT FROM wanted) AS differing FROM rule_answers GROUP BY 1 ORDER BY 1;
SELECT * FROM rule_answers WHERE got IS DISTINCT FROM wanted ORDER BY line LIMIT 5;

-- The same rules in a book: in all years, up to a year, and every third year from it on, when days move. A day moves by at most six days, so all that
-- lead to a day of a window six days smaller are listed.
CREATE TABLE ruled AS
    SELECT line, out, date_of(word[4]::bigint) + 6 AS first, date_of(word[5]::bigint) - 6 AS last,
           concat(',', word[2], ',,"', replace(rule, '"', '""'), '",', to_char(date_of(word[6]::bigint), 'YYYY-MM-DD')) AS rest
      FROM rules
     WHERE len = 7 AND out !~ '^err (InvalidWindow|Overflow)' AND CASE WHEN word[6] ~ '^-?\d+$' THEN word[6]::bigint BETWEEN 1 AND 3652059 END;
SELECT count(*) > 50 AS refused, count(*) FILTER (WHERE detail IS DISTINCT FROM 'Cause: InvalidRecord 1 field 5.') AS others
  FROM ruled, split_part(refusal(format('SELECT calendar_holidays(%L, ''2024-01-01'', ''2024-01-01'')', 'rule,All' || rest)), ' | ', 3) AS detail
 WHERE out ~ '^err';
CREATE TABLE occurring AS
    SELECT line, it[1]::integer AS year, it[2]::bigint AS day FROM ruled, regexp_matches(out, '^\d+ (-?\d+)/\S+@(-?\d+) ', 'gn') AS it;
CREATE TABLE booked AS
    SELECT line, first, last, middle,
           format(E'rule,All%1$s\nrule,Until%1$s,,%2$s\nrule,Third%1$s,%2$s,,3,monday+6 tuesday-6 wednesday+1 thursday-1 saturday+3', rest, middle) AS book
      FROM ruled LEFT JOIN (SELECT line, percentile_disc(0.5) WITHIN GROUP (ORDER BY year) AS year FROM occurring GROUP BY 1) AS it USING (line),
           coalesce(year, 0) AS middle
     WHERE out !~ '^err' AND first <= last;
CREATE TABLE booked_days AS
    SELECT line, name, day FROM booked, calendar_holidays(book, first, last, published => false);
CREATE TABLE named_days AS
    SELECT DISTINCT line, name, moved AS day
      FROM booked JOIN occurring USING (line),
           LATERAL (VALUES ('All', true, 0), ('Until', year <= middle, 0),
                           ('Third', year >= middle AND (year - middle) % 3 = 0, (ARRAY[0, 6, -6, 1, -1, 0, 3])[(day % 7 + 7) % 7 + 1]))
               AS it(name, is_kept, move),
           date_of(day + move) AS moved
     WHERE is_kept AND moved BETWEEN first AND last;
SELECT name, count(*) > 100 AS days FROM booked_days GROUP BY name ORDER BY name;
(TABLE booked_days EXCEPT ALL TABLE named_days) UNION ALL (TABLE named_days EXCEPT ALL TABLE booked_days);

-- Published years are those of the other functions.
SELECT name, count(*) FILTER (WHERE rule.day IS NULL) AS lacking, count(*) FILTER (WHERE shown.day IS NULL) AS more, count(*) > 1000 AS many
  FROM calendars,
       LATERAL (SELECT day FROM calendar_rrule('1900-01-01', name, 'FREQ=MONTHLY;BYMONTHDAY=1', '1900-01-01', '2110-12-31')) AS rule
       FULL JOIN LATERAL (SELECT t::date AS day FROM generate_series(date '1900-01-01', '2110-12-31', interval '1 day') AS it(t)
                           WHERE calendar_part('day', name, t::date) = 1) AS shown USING (day)
 WHERE published IS NOT NULL AND name <> 'japanese' GROUP BY name ORDER BY name;

-- Errors, with what the manual says of each.
SELECT refusal(format('SELECT calendar_rrule(%s)', call)) FROM unnest(ARRAY[
    '''2024-01-01'', ''iso'', '''', ''2024-01-01'', ''2024-12-31''',
    '''2024-01-01'', ''iso'', ''FREQ=DAILY;'', ''2024-01-01'', ''2024-12-31''',
    '''2024-01-01'', ''iso'', ''FREQ=DAILY; COUNT=1'', ''2024-01-01'', ''2024-12-31''',
    '''2024-01-01'', ''iso'', E''FREQ=DAILY\u00e9'', ''2024-01-01'', ''2024-12-31''',
    '''2024-01-01'', ''iso'', ''FREQ=DAILY;FREQ=DAILY'', ''2024-01-01'', ''2024-12-31''',
    '''2024-01-01'', ''iso'', ''FREQ=HOURLY'', ''2024-01-01'', ''2024-12-31''',
    '''2024-01-01'', ''iso'', ''FREQ=DAILY;BYMONTH=13'', ''2024-01-01'', ''2024-12-31''',
    '''2024-01-01'', ''iso'', ''RSCALE=KLINGON;FREQ=DAILY'', ''2024-01-01'', ''2024-12-31''',
    '''2024-01-01'', ''iso'', ''RSCALE=HEBREW;FREQ=DAILY'', ''2024-01-01'', ''2024-12-31''',
    '''2024-01-01'', ''iso'', ''COUNT=1'', ''2024-01-01'', ''2024-12-31''',
    '''2024-01-01'', ''iso'', ''FREQ=DAILY;COUNT=1;UNTIL=20240101'', ''2024-01-01'', ''2024-12-31''',
    '''2024-01-01'', ''iso'', ''FREQ=MONTHLY;BYWEEKNO=1'', ''2024-01-01'', ''2024-12-31''',
    '''2024-01-01'', ''iso'', ''FREQ=WEEKLY;BYDAY=1MO'', ''2024-01-01'', ''2024-12-31''',
    '''2024-01-01'', ''iso'', ''FREQ=DAILY;BYSETPOS=1'', ''2024-01-01'', ''2024-12-31''',
    '''2024-01-01'', ''iso'', ''FREQ=DAILY'', ''2024-12-31'', ''2024-01-01''',
    '''2024-01-01'', ''iso'', ''FREQ=DAILY'', ''2024-12-31'', ''1000000-01-01''',
    '''1000000-01-01'', ''iso'', ''FREQ=DAILY'', ''2024-01-01'', ''2024-12-31''',
    '''infinity'', ''iso'', ''FREQ=DAILY'', ''2024-01-01'', ''2024-12-31'''
]) AS call;
