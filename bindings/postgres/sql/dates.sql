-- Dates: shown, named, added and subtracted.
SET datestyle = ISO;

SELECT * FROM calendar_parts('hebrew', date '2024-03-01');
SELECT * FROM calendar_parts('chinese', date '2024-03-01');
SELECT * FROM calendar_parts('japanese', date '2024-03-01');
SELECT calendar_part('year', 'hebrew', date '2024-03-01'), calendar_part('month', 'hebrew', date '2024-03-01'),
       calendar_part('DAY', 'hebrew', date '2024-03-01');
SELECT calendar_part('era_year', 'japanese', date '2024-03-01'), calendar_part('era_year', 'chinese', date '2024-03-01') AS none,
       calendar_part('cyclic_year', 'chinese', date '2024-03-01'), calendar_part('cyclic_year', 'hebrew', date '2024-03-01') AS none;
SELECT calendar_part('day_of_year', 'hebrew', date '2024-03-01'), calendar_part('days_in_month', 'hebrew', date '2024-03-01'),
       calendar_part('days_in_year', 'hebrew', date '2024-03-01'), calendar_part('months_in_year', 'hebrew', date '2024-03-01');
SELECT calendar_era('japanese', date '2024-03-01'), calendar_era('chinese', date '2024-03-01') AS none, calendar_month_code('hebrew', date '2024-03-01');
SELECT name, calendar_text(name, date '2024-03-01') FROM calendars ORDER BY name;
SELECT calendar_text('chinese', date '2023-01-22'), calendar_text('chinese', date '2023-01-22', published => false) AS computed;

-- Days of a year and places in it are those of date_part.
SELECT count(*) FROM generate_series(date '1895-01-01', date '2105-12-31', interval '5 days') AS it(t)
 WHERE calendar_part('day_of_year', 'iso', t::date) <> date_part('doy', t) OR calendar_part('year', 'iso', t::date) <> date_part('year', t)
    OR calendar_part('month', 'iso', t::date) <> date_part('month', t) OR calendar_part('day', 'iso', t::date) <> date_part('day', t);

SELECT calendar_date('hebrew', 5784, 'M05L', 10), calendar_date('hebrew', 5784, 6, 10), calendar_date('hebrew', 5783, 'M05L', 10, 'constrain');
SELECT calendar_date('japanese', 'reiwa', 6, 'M02', 29), calendar_date('japanese', 'reiwa', 6, 2, 29),
       calendar_date('japanese', 'reiwa', 7, 'M02', 29, overflow => 'constrain');
SELECT calendar_date('chinese', 2023, 'M01', 1), calendar_date('chinese', 2023, 'M01', 1, published => false) AS computed;
SELECT calendar_date('gregorian', 'bce', 44, 'M03', 15), calendar_date('julian', 'bc', 44, 3, 15);
SELECT calendar_date('iso', ROW(NULL, NULL, NULL, NULL, 'M02', NULL, 29)::calendar_parts, missing => 'ecma'),
       calendar_date('hebrew', calendar_parts('hebrew', date '2024-03-01'));

SELECT calendar_add(date '2024-03-01', 'hebrew', 1), calendar_add(date '2024-03-01', 'hebrew', months => -1, days => -1),
       calendar_add(date '2024-01-31', 'iso', months => 1), calendar_add(date '2024-01-01', 'iso', weeks => 2),
       calendar_add(date '2024-01-31', 'iso', months => 13, overflow => 'constrain');
SELECT calendar_add(date '2024-03-01', 'hebrew', ROW(1, NULL, NULL, 3)::calendar_duration);
SELECT calendar_until(date '1990-07-20', date '2024-03-01', 'hebrew', 'years'), calendar_until(date '2024-03-01', date '1990-07-20', 'chinese', 'months'),
       (calendar_until(date '1990-07-20', date '2024-03-01', 'hebrew', 'years')).years;
SELECT calendar_until_text(date '1990-07-20', date '2024-03-01', 'hebrew', 'years'), calendar_until_text(date '2024-03-01', date '1990-07-20', 'iso', 'weeks'),
       calendar_until_text(date '2024-03-01', date '2024-03-01', 'hebrew'), calendar_until_text(date '2024-03-01', date '2025-03-01', 'hebrew');

-- A null argument makes a null result.
SELECT calendar_part('year', 'hebrew', NULL) IS NULL, calendar_text(NULL, date '2024-03-01') IS NULL, calendar_date('hebrew', 5784, 'M05L', NULL) IS NULL;

-- In every calendar the parts of a date name it again, by code and by place; a difference leads back, and days count the same.
CREATE TEMP TABLE days AS
    SELECT date_of(n) AS d, date_of(n + (n * 7919) % 40000) AS later
      FROM (SELECT generate_series(-1721425::bigint, 365242134, 1000003) UNION ALL SELECT generate_series(690000, 780000, 331)) AS it(n)
     WHERE n + (n * 7919) % 40000 BETWEEN -1721425 AND 365242134;
SELECT count(*) FROM days;
SELECT count(*) AS differing
  FROM days, calendars, calendar_parts(name, d) AS p, (VALUES (true), (false)) AS it(years)
 WHERE calendar_date(name, calendar_parts(name, d, years), published => years) <> d
    OR calendar_date(name, p.year, p.month_code, p.day) <> d OR calendar_date(name, p.year, p.month, p.day) <> d
    OR p.era IS NOT NULL AND calendar_date(name, p.era, p.era_year, p.month_code, p.day) <> d
    OR p.era IS NOT NULL AND calendar_date(name, p.era, p.era_year, p.month, p.day) <> d
    OR calendar_part('day_of_year', name, d) <> d - calendar_date(name, p.year, 1, 1) + 1
    OR calendar_text(name, d) IS DISTINCT FROM
       concat_ws(' ', nullif(p.era, 'default'), format('%s-%s-%s', coalesce(p.era_year, p.year), p.month_code, lpad(p.day::text, 2, '0')));
SELECT count(*) AS differing
  FROM days, calendars, unnest(ARRAY['years', 'months', 'weeks', 'days']) AS unit
 WHERE calendar_add(d, name, calendar_until(d, later, name, unit)) <> later
    OR calendar_until_text(d, later, name, 'days') <> CASE WHEN later < d THEN '-' ELSE '' END || format('P%sD', abs(later - d));

-- The first and the last day.
SELECT calendar_text('hebrew', date '4714-11-24 BC'), calendar_text('iso', date '999999-12-31'), calendar_part('days_in_year', 'hebrew', date '999999-12-31'),
       calendar_part('day_of_year', 'coptic', date '4714-11-24 BC');
