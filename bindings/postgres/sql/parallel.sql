-- A parallel plan gives what one worker gives.
SET datestyle = ISO;
\set rows `echo "${PARALLEL_ROWS:-200000}"`
CREATE UNLOGGED TABLE many AS SELECT date '1800-01-01' + (n::bigint * 7919 % 120000)::integer AS d FROM generate_series(1, :rows) AS n;
ANALYZE many;
CREATE VIEW shown_everywhere AS
    SELECT count(*) AS n, sum(calendar_part('year', 'hebrew', d)) AS years, sum(hashtext(calendar_text('chinese', d))::bigint) AS texts,
           sum(hashtext(calendar_parts('islamic-umalqura', d)::text)::bigint) AS parts,
           sum(calendar_add(d, 'hebrew', 1, 1) - d) AS sums, sum((calendar_until(d, date '2024-03-01', 'persian', 'years')).days) AS days,
           sum((SELECT count(*) FROM calendar_anniversaries('dangi', 'M01', 1, d, d + 400))) AS lists
      FROM many;
SET max_parallel_workers_per_gather = 0;
SELECT md5(shown_everywhere::text) AS one, n = :rows AS all FROM shown_everywhere \gset
EXPLAIN (COSTS off) SELECT n, years FROM shown_everywhere;
SET max_parallel_workers_per_gather = 2;
SET parallel_setup_cost = 0;
SET parallel_tuple_cost = 0;
SET min_parallel_table_scan_size = 0;
EXPLAIN (COSTS off) SELECT n, years FROM shown_everywhere;
SELECT :'all'::boolean AS all_rows, md5(shown_everywhere::text) = :'one' AS same FROM shown_everywhere;
