-- Loads one listing, in one transaction: whatever fails, nothing is loaded. The script load runs this in a folder with the files
--
--     listing     what ./list printed
--     lines       the lines of the file: their numbers, 0 for the layout, and their bytes in hexadecimal
--
-- and with the variables file, sha256, layout, records and refused; the last two are the numbers of ./list's last line.
\set ON_ERROR_STOP on
\set SHOW_CONTEXT never
\encoding UTF8
BEGIN;

-- Each check below is a query for what is wrong; it stops at the first row found.
CREATE FUNCTION pg_temp.stop(message text) RETURNS void LANGUAGE plpgsql AS $$ BEGIN RAISE EXCEPTION '%', message; END $$;
\o /dev/null
SELECT pg_temp.stop('there are no tables; run tables.sql first') WHERE to_regclass('weighbridge.files') IS NULL;

CREATE TEMPORARY TABLE lines (record integer, hex text) ON COMMIT DROP;
CREATE TEMPORARY TABLE listed (line text) ON COMMIT DROP;
\copy pg_temp.lines FROM lines
\copy pg_temp.listed FROM listing

-- The listing in columns; m are the numbers behind the first three.
CREATE TEMPORARY TABLE listing ON COMMIT DROP AS
    SELECT word[1]::integer AS record, word[2]::integer AS number, word[3]::integer AS field, word[4:]::numeric[] AS m
    FROM pg_temp.listed, string_to_array(line, ',') AS word;

-- Every line of the file is listed once.
SELECT pg_temp.stop('the layout is not listed as accepted')
    WHERE NOT EXISTS (SELECT FROM pg_temp.listing WHERE record = 0 AND number = 0);
SELECT pg_temp.stop(format('line %s of the file is not listed once', record + 1))
    FROM pg_temp.lines FULL JOIN pg_temp.listing USING (record)
    GROUP BY record HAVING count(hex) <> 1 OR count(number) <> 1 ORDER BY record LIMIT 1;

-- Nothing is loaded twice: no file, by its bytes or by its name, and no lot.
SELECT pg_temp.stop(format('this file was loaded already, as %s on %s', file, to_char(loaded, 'YYYY-MM-DD "at" HH24:MI')))
    FROM weighbridge.files WHERE sha256 = :'sha256';
SELECT pg_temp.stop(format('another file named %s was loaded on %s; give this one a name of its own', file,
                           to_char(loaded, 'YYYY-MM-DD "at" HH24:MI')))
    FROM weighbridge.files WHERE file = :'file';
SELECT pg_temp.stop(format('lot %s in line %s was loaded already, from line %s of %s', lot, l.record + 1, o.record + 1, o.file))
    FROM pg_temp.listing l JOIN weighbridge.lots o ON lot = m[1] WHERE l.record > 0 AND number = 0 ORDER BY l.record LIMIT 1;
SELECT pg_temp.stop(format('lot %s stands in lines %s', m[1], string_agg((record + 1)::text, ', ' ORDER BY record)))
    FROM pg_temp.listing WHERE record > 0 AND number = 0 GROUP BY m[1] HAVING count(*) > 1 ORDER BY m[1] LIMIT 1;

-- A value is listed without its decimal point: the number times 0.1 is a moisture and times 0.01 an amount, exactly, as NUMERIC
-- multiplies.
INSERT INTO weighbridge.files (file, sha256, layout, records) VALUES (:'file', :'sha256', :'layout', :records);
INSERT INTO weighbridge.lots (lot, gross, net, moisture, amount, file, record)
    SELECT m[1], m[2], m[3], m[4] * 0.1, m[5] * 0.01, :'file', record FROM pg_temp.listing WHERE record > 0 AND number = 0;
INSERT INTO weighbridge.refused (file, record, number, field, line)
    SELECT :'file', record, number, field, decode(hex, 'hex')
    FROM pg_temp.listing JOIN pg_temp.lines USING (record) WHERE record > 0 AND number <> 0;

-- The tables have as many records as the file and as ./list counted, and each value as it is listed.
CREATE TEMPORARY TABLE counts ON COMMIT DROP AS
    SELECT (SELECT count(*) FROM pg_temp.lines WHERE record > 0) AS lines,
           (SELECT count(*) FROM weighbridge.lots WHERE file = :'file') AS lots,
           (SELECT count(*) FROM weighbridge.refused WHERE file = :'file') AS refused;
SELECT pg_temp.stop(format('the file has %s records, and ./list counted %s', lines, :records))
    FROM pg_temp.counts WHERE lines <> :records;
SELECT pg_temp.stop(format('of %s records %s are lots and %s are refused, and ./list counted %s refused', lines, lots, refused, :refused))
    FROM pg_temp.counts WHERE lots + refused <> lines OR refused <> :refused;
SELECT pg_temp.stop(format('lot %s is not as it is listed', lot))
    FROM weighbridge.lots JOIN pg_temp.listing USING (record)
    WHERE file = :'file' AND m <> ARRAY[lot, gross, net, moisture * 10, amount * 100] LIMIT 1;

-- What was loaded, for the one who loads it.
\o
\pset format unaligned
\pset tuples_only on
SELECT format('%s: %s %s', :'file', lines, CASE lines WHEN 1 THEN 'record' ELSE 'records' END) FROM pg_temp.counts;
SELECT format('lots loaded     %s', lots) FROM pg_temp.counts;
SELECT format('sum of amounts  %s', to_char(coalesce(sum(amount), 0), 'FM999,999,999,990.00')) FROM weighbridge.lots WHERE file = :'file';
SELECT format('refused         %s%s', refused, CASE WHEN refused > 0 THEN ', not among the lots and not paid:' END) FROM pg_temp.counts;
SELECT format('  line %s, record %s: %s %s%s: "%s"', line_number, record, number, name,
              CASE WHEN field > 0 THEN format(' in field %s, %s', field, field_name) END,
              CASE WHEN length(line) > 80 THEN left(line, 80) || '...' ELSE line END)
    FROM weighbridge.refused_lines WHERE file = :'file' ORDER BY record;
COMMIT;
