-- The tables of a ledger for the files of a weighbridge whose layout is
--
--     (6)9;ZZ,ZZ9;ZZ,ZZ9;Z9V.9;$$,$$9V.99CR;
--
-- Run once in a database: psql -f tables.sql. A second run fails and changes nothing.
-- A picture with i digits before V and f behind it is NUMERIC(i + f, f): it holds every value of the picture, to the last place.
\set ON_ERROR_STOP on
BEGIN;
CREATE SCHEMA weighbridge;

-- The files loaded. A file is known by its name and by its bytes: neither comes twice.
CREATE TABLE weighbridge.files (
    file    text PRIMARY KEY,                       -- its name, without folders
    sha256  text NOT NULL UNIQUE,                   -- of its bytes
    layout  text NOT NULL CHECK (layout = '(6)9;ZZ,ZZ9;ZZ,ZZ9;Z9V.9;$$,$$9V.99CR;'),
    records integer NOT NULL CHECK (records >= 0),  -- good and refused
    loaded  timestamptz NOT NULL DEFAULT now()
);

-- The lots to be paid. A lot comes once, whatever file it stands in. Record k stands in line k + 1 of its file.
CREATE TABLE weighbridge.lots (
    lot      numeric(6, 0) PRIMARY KEY,             -- (6)9
    gross    numeric(5, 0) NOT NULL,                -- ZZ,ZZ9
    net      numeric(5, 0) NOT NULL,                -- ZZ,ZZ9
    moisture numeric(3, 1) NOT NULL,                -- Z9V.9
    amount   numeric(6, 2) NOT NULL,                -- $$,$$9V.99CR, below zero for a credit
    file     text NOT NULL REFERENCES weighbridge.files,
    record   integer NOT NULL CHECK (record > 0),
    UNIQUE (file, record)
);

-- The numbers that come back.
CREATE TABLE weighbridge.refusals (
    number integer PRIMARY KEY,
    name   text NOT NULL UNIQUE
);
INSERT INTO weighbridge.refusals VALUES
    (1, 'TEXT'), (2, 'SYMBOL'), (3, 'LONG'), (4, 'SHAPE'), (5, 'DIGITS'), (6, 'VALUE'), (7, 'ROOM'), (8, 'SIZE'),
    (9, 'LENGTH'), (10, 'CONVERSION'), (11, 'COUNT'), (12, 'PLAN'), (13, 'INPUT'), (14, 'FULL');

-- The records refused. The line is kept as bytes: a bad line may hold any of them, and text takes neither NUL nor broken UTF-8.
CREATE TABLE weighbridge.refused (
    file   text NOT NULL REFERENCES weighbridge.files,
    record integer NOT NULL CHECK (record > 0),
    number integer NOT NULL REFERENCES weighbridge.refusals,
    field  integer NOT NULL CHECK (field BETWEEN 0 AND 5),  -- the first bad field, or 0
    line   bytea NOT NULL,
    PRIMARY KEY (file, record)
);

-- A line for a reader: printable ASCII as it is, \\ for a backslash and \xHH for any other byte.
CREATE FUNCTION weighbridge.shown(line bytea) RETURNS text LANGUAGE sql IMMUTABLE AS $$
    SELECT coalesce(string_agg(CASE WHEN b = 92 THEN E'\\\\' WHEN b BETWEEN 32 AND 126 THEN chr(b)
                                    ELSE E'\\x' || lpad(to_hex(b), 2, '0') END, '' ORDER BY k), '')
    FROM generate_series(0, length(line) - 1) AS k, get_byte(line, k) AS b
$$;

-- The records refused, with names for numbers and fields, the place in the file and the line for a reader.
CREATE VIEW weighbridge.refused_lines AS
    SELECT file, record + 1 AS line_number, record, number, name, field,
           (ARRAY['lot', 'gross', 'net', 'moisture', 'amount'])[field] AS field_name, weighbridge.shown(line) AS line
    FROM weighbridge.refused JOIN weighbridge.refusals USING (number);
COMMIT;
