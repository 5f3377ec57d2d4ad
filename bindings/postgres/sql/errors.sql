-- Each error has an SQLSTATE of class 22, and names its cause.
SET datestyle = ISO;

SELECT refusal($$SELECT calendar_part('year', 'klingon', date '2024-03-01')$$);
SELECT refusal($$SELECT 'klingon'::text::calendar_name$$);
SELECT refusal($$SELECT calendar_part('years', 'hebrew', date '2024-03-01')$$);
SELECT refusal($$SELECT calendar_part('', 'hebrew', date '2024-03-01')$$);

-- Dates without a place, and past the last one.
SELECT refusal(format('SELECT %s', call)) FROM unnest(ARRAY[
    'calendar_parts(''hebrew'', ''infinity'')',
    'calendar_part(''year'', ''hebrew'', ''-infinity'')',
    'calendar_text(''hebrew'', ''1000000-01-01'')',
    'calendar_era(''hebrew'', ''1000000-01-01'')',
    'calendar_month_code(''hebrew'', ''infinity'')',
    'calendar_anniversary_key(''hebrew'', ''infinity'')',
    'calendar_add(''infinity'', ''hebrew'', 1)',
    'calendar_add(''999999-12-31'', ''hebrew'', days => 1)',
    'calendar_add(''4714-11-24 BC'', ''hebrew'', days => -1)',
    'calendar_add(''2024-03-01'', ''iso'', years => -2147483648)',
    'calendar_add(''2024-03-01'', ''iso'', years => 2147483647, months => 2147483647, weeks => 2147483647, days => 2147483647)',
    'calendar_until(''2024-03-01'', ''infinity'', ''hebrew'')',
    'calendar_until_text(''2024-03-01'', ''1000000-01-01'', ''hebrew'')',
    'calendar_date(''iso'', 1000000, ''M01'', 1)',
    'calendar_date(''iso'', -5000, ''M01'', 1)',
    'calendar_date(''iso'', 2147483647, ''M01'', 1)',
    'calendar_date(''iso'', -2147483648, ''M01'', 1)'
]) AS call;

-- Fields.
SELECT refusal(format('SELECT %s', call)) FROM unnest(ARRAY[
    'calendar_date(''iso'', 2023, ''M02'', 29)',
    'calendar_date(''iso'', 2023, ''M02'', 0)',
    'calendar_date(''iso'', 2023, ''M02'', -1)',
    'calendar_date(''iso'', 2023, ''M02'', 2147483647)',
    'calendar_date(''iso'', 2023, 13, 1)',
    'calendar_date(''iso'', 2023, 0, 1)',
    'calendar_date(''iso'', 2023, -2147483648, 1)',
    'calendar_date(''iso'', 2023, ''M13'', 1)',
    'calendar_date(''iso'', 2023, ''M1'', 1)',
    'calendar_date(''iso'', 2023, '''', 1)',
    'calendar_date(''hebrew'', 5783, ''M05L'', 1)',
    'calendar_date(''japanese'', ''reiwas'', 6, ''M02'', 29)',
    'calendar_date(''japanese'', '''', 6, ''M02'', 29)',
    'calendar_date(''chinese'', ''ce'', 6, ''M02'', 29)',
    'calendar_date(''iso'', ROW(NULL, NULL, 2024, NULL, ''M02'', NULL, NULL)::calendar_parts)',
    'calendar_date(''iso'', ROW(NULL, NULL, NULL, NULL, ''M02'', NULL, 1)::calendar_parts)',
    'calendar_date(''iso'', ROW(''default'', NULL, 2024, NULL, ''M02'', NULL, 1)::calendar_parts)',
    'calendar_date(''iso'', ROW(''default'', 2023, 2024, NULL, ''M02'', NULL, 1)::calendar_parts)',
    'calendar_date(''iso'', ROW(NULL, NULL, 2024, NULL, ''M02'', 3, 1)::calendar_parts)',
    'calendar_date(''iso'', 2023, ''M02'', 29, ''none'')',
    'calendar_date(''iso'', ROW(NULL, NULL, 2024, NULL, ''M02'', 2, 1)::calendar_parts, missing => ''none'')'
]) AS call;

-- Options, durations, windows, lists and books.
SELECT refusal(format('SELECT %s', call)) FROM unnest(ARRAY[
    'calendar_add(''2024-01-31'', ''iso'', months => 1, overflow => ''reject'')',
    'calendar_add(''2024-01-31'', ''iso'', months => 1, overflow => ''skip'')',
    'calendar_add(''2024-01-31'', ''iso'', months => 1, days => -1)',
    'calendar_add(''2024-02-20'', ''hebrew'', years => 1, overflow => ''reject'')',
    'calendar_until(''2024-01-31'', ''2024-02-01'', ''iso'', ''decades'')',
    'calendar_anniversaries(''iso'', ''M13'', 1, ''2024-01-01'', ''2024-12-31'')',
    'calendar_anniversaries(''iso'', ''M1'', 1, ''2024-01-01'', ''2024-12-31'')',
    'calendar_anniversaries(''iso'', '''', 1, ''2024-01-01'', ''2024-12-31'')',
    'calendar_anniversaries(''iso'', ''M12'', 32, ''2024-01-01'', ''2024-12-31'')',
    'calendar_anniversaries(''iso'', ''M12'', 0, ''2024-01-01'', ''2024-12-31'')',
    'calendar_anniversaries(''iso'', ''M12'', 1, ''2024-12-31'', ''2024-01-01'')',
    'calendar_anniversaries(''iso'', ''M12'', 1, ''2024-12-31'', ''infinity'')',
    'calendar_anniversaries(''iso'', ''M12'', 1, ''2024-12-31'', ''1000000-01-01'')',
    'calendar_anniversaries(''iso'', ''M12'', 1, ''2024-01-01'', ''2024-12-31'', ''skip'')',
    'calendar_recurrences(''2024-01-31'', ''iso'', ''months'', 0, ''2024-01-01'', ''2024-12-31'')',
    'calendar_recurrences(''2024-01-31'', ''iso'', ''moons'', 1, ''2024-01-01'', ''2024-12-31'')',
    'calendar_recurrences(''2024-01-31'', ''iso'', ''months'', 1, ''2024-12-31'', ''2024-01-01'')',
    'calendar_recurrences(''1000000-01-01'', ''iso'', ''months'', 1, ''2024-01-01'', ''2024-12-31'')',
    'calendar_recurrences(''2024-01-31'', ''iso'', ''months'', 1, ''2024-01-01'', ''1000000-01-01'')',
    'calendar_recurrences(''2024-01-31'', ''iso'', ''months'', 1, ''2024-01-01'', ''2024-12-31'', ''exact'')',
    'calendar_holidays(''fixed,Founding day,klingon,M01,1,exact'', ''2024-01-01'', ''2024-12-31'')',
    'calendar_holidays(''fixed,Founding day,iso,M01,1'', ''2024-01-01'', ''2024-12-31'')',
    'calendar_holidays(E''\nfixed,One,iso,M01,1,exact\nfixed,Caf\u00e9,iso,M01,1,exact'', ''2024-01-01'', ''2024-12-31'')',
    'calendar_holidays(''easter,Easter,gregorian,,0,,x'', ''2024-01-01'', ''2024-12-31'')',
    'calendar_holidays(''easter,Easter,gregorian,,0,,1,x'', ''2024-01-01'', ''2024-12-31'')',
    'calendar_holidays(''easter,Easter,gregorian,,0,,,,4'', ''2024-01-01'', ''2024-12-31'')',
    'calendar_holidays(''easter,Easter,gregorian,,0,,,,,sunday+7'', ''2024-01-01'', ''2024-12-31'')',
    'calendar_holidays(''easter,Easter,gregorian,,0,,,,,,'', ''2024-01-01'', ''2024-12-31'')',
    'calendar_holidays(''span,Advent,gregorian,M11,27,+sunday'', ''2024-01-01'', ''2024-12-31'')',
    'calendar_holidays(''rule,Payday,iso,M01,FREQ=DAILY,2024-01-01'', ''2024-01-01'', ''2024-12-31'')',
    'calendar_holidays(''rule,Payday,iso,,FREQ=HOURLY,2024-01-01'', ''2024-01-01'', ''2024-12-31'')',
    'calendar_holidays(''rule,Payday,iso,,FREQ=DAILY,2023-02-29'', ''2024-01-01'', ''2024-12-31'')',
    'calendar_holidays(E''# rows\nrow persian 1502\neaster,Easter,gregorian,,0,'', ''2024-01-01'', ''2024-12-31'')',
    'calendar_holidays(''row'', ''2024-01-01'', ''2024-12-31'')',
    'calendar_holidays('''', ''2024-12-31'', ''2024-01-01'')',
    'calendar_holidays('''', ''2024-12-31'', ''1000000-01-01'')',
    'calendar_holidays(repeat(E''\n'', 16777217), ''2024-01-01'', ''2024-12-31'')',
    'calendar_anniversary_keys(''hebrew'', ''2024-12-31'', ''2024-01-01'')',
    'calendar_anniversary_keys(''hebrew'', ''2024-12-31'', ''1000000-01-01'')',
    'calendar_anniversary_keys(''hebrew'', ''2024-01-01'', ''2024-01-07'', ''skip'')'
]) AS call;

-- A list that never has an item is cancelled.
SET statement_timeout = '100ms';
SELECT refusal($$SELECT count(*) FROM calendar_holidays(repeat(E'weekday,Never,coptic,M13,5,monday\n', 5000), '4713-01-01 BC', '999999-12-31')$$);
SELECT refusal($$SELECT count(*) FROM (SELECT calendar_recurrences('2024-01-01', 'hebrew', 'days', 1, '2024-01-01', '999999-12-31')) AS it$$);
SELECT refusal($$SELECT count(*)
                   FROM calendar_holidays(repeat(E'rule,Never,iso,,FREQ=YEARLY;BYMONTH=2;BYMONTHDAY=30,2024-01-01\n', 1000), '2024-01-01', '999999-12-31')$$);
RESET statement_timeout;
