-- What docs/SQL.md shows. The extension is loaded, and the list is read.
CREATE TABLE packages (name TEXT, license TEXT);
INSERT INTO packages VALUES
    ('serde', 'MIT OR Apache-2.0'),
    ('ring', 'Apache-2.0 AND ISC'),
    ('left-pad', 'WTFPL'),
    ('old', 'mit/apache-2.0'),
    ('linux', 'GPL-2.0 WITH Linux-syscall-note'),
    ('odd', 'see LICENSE'),
    ('none', NULL);
SELECT name, spdx_canonical(license), spdx_allowed(license, 'MIT' || char(10) || 'ISC') FROM packages;
SELECT name, license, spdx_fault(license), spdx_fix(license) FROM packages WHERE spdx_fault(license) IS NOT NULL;
SELECT spdx_allowed(license, 'MIT' || char(10) || 'ISC') AS allowed, count(*) FROM packages GROUP BY allowed;
SELECT spdx_same('MIT OR (MIT AND Zlib)', 'MIT'), spdx_same('MIT', 'ISC'), spdx_same('MIT', 'no such');
SELECT spdx_simplify('(MIT OR Apache-2.0) AND MIT'), spdx_normal('((MIT)) AND (ISC AND Zlib)');
