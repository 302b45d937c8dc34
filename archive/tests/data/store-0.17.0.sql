-- A store as release 0.17.0 wrote it, as SQLite writes it out.
BEGIN TRANSACTION;
CREATE TABLE about (
	name VARCHAR(32) NOT NULL, 
	value TEXT NOT NULL, 
	PRIMARY KEY (name)
);
INSERT INTO "about" VALUES('schema','3');
INSERT INTO "about" VALUES('package','unknown (26513706cfc4)');
INSERT INTO "about" VALUES('shared library','76f9e7bb370b');
INSERT INTO "about" VALUES('reader','3.3');
INSERT INTO "about" VALUES('paths','["/f"]');
INSERT INTO "about" VALUES('host','vm');
INSERT INTO "about" VALUES('indexed','2026-11-29 01:08 UTC');
INSERT INTO "about" VALUES('library','unknown');
CREATE TABLE parts (
	id INTEGER NOT NULL, 
	path TEXT NOT NULL, 
	name TEXT DEFAULT '' NOT NULL, 
	chunk INTEGER DEFAULT '0' NOT NULL, 
	chunks INTEGER DEFAULT '1' NOT NULL, 
	whole TEXT, 
	top INTEGER DEFAULT '1' NOT NULL, 
	state INTEGER DEFAULT '0' NOT NULL, 
	again BOOLEAN DEFAULT (0) NOT NULL, 
	is_stored BOOLEAN DEFAULT (0) NOT NULL, 
	anew BOOLEAN DEFAULT (0) NOT NULL, 
	verifies BOOLEAN DEFAULT (0) NOT NULL, 
	tries INTEGER DEFAULT '0' NOT NULL, 
	doing TEXT, 
	holder BIGINT, 
	since BIGINT, 
	files BIGINT DEFAULT '0' NOT NULL, 
	PRIMARY KEY (id), 
	CONSTRAINT parts_by_path UNIQUE (path, name, chunk), 
	CONSTRAINT parts_path CHECK (path LIKE '/%/' OR path = '/'), 
	CONSTRAINT parts_chunk CHECK (chunk >= 0 AND chunk < chunks AND (name = '' OR chunks = 1)), 
	CONSTRAINT parts_state CHECK (state BETWEEN 0 AND 3), 
	CONSTRAINT parts_plain CHECK ((path || name || coalesce(whole, '')) NOT GLOB '*[' || char(1) || '-' || char(31) || char(127) || '-' || char(159) || ']*')
);
INSERT INTO "parts" VALUES(1,'/f/','',0,1,NULL,15,2,0,1,0,0,0,NULL,1,1795914487,6);
CREATE TABLE place_signers (
	part BIGINT NOT NULL, 
	file TEXT NOT NULL, 
	member TEXT NOT NULL, 
	number VARCHAR(64) NOT NULL, 
	digest TEXT, 
	signature TEXT, 
	issuer TEXT, 
	serial TEXT, 
	key_identifier TEXT, 
	signing_time TEXT, 
	subject TEXT, 
	not_before TEXT, 
	not_after TEXT, 
	"key" TEXT, 
	bits INTEGER, 
	PRIMARY KEY (part, file, member, number), 
	CONSTRAINT place_signers_plain CHECK ((file || member || number || coalesce(digest, '') || coalesce(signature, '') || coalesce(issuer, '') || coalesce(serial, '') || coalesce(key_identifier, '') || coalesce(signing_time, '') || coalesce(subject, '') || coalesce(not_before, '') || coalesce(not_after, '') || coalesce("key", '')) NOT GLOB '*[' || char(1) || '-' || char(31) || char(127) || '-' || char(159) || ']*')
)
 WITHOUT ROWID

;
INSERT INTO "place_signers" VALUES(1,'a.zip','r.p7m','0','sha256','rsa','CN=Signer','318fb3173cf76a091d3c9662cbf950e89fd68de7',NULL,'2026-11-29T01:08:06Z','CN=Signer','2026-11-29T01:08:06Z','2029-05-17T01:08:06Z','RSA',2048);
INSERT INTO "place_signers" VALUES(1,'doc.p7s','','0','sha256','rsa','CN=Signer','318fb3173cf76a091d3c9662cbf950e89fd68de7',NULL,'2026-11-29T01:08:06Z','CN=Signer','2026-11-29T01:08:06Z','2029-05-17T01:08:06Z','RSA',2048);
INSERT INTO "place_signers" VALUES(1,'doc.tst','','0','sha256','rsa','CN=TSA','1b3085eae82d709f646f417a766ef727af9f5d90',NULL,'2026-11-29T01:08:06Z','CN=TSA','2026-11-29T01:08:06Z','2029-05-17T01:08:06Z','RSA',2048);
CREATE TABLE place_times (
	part BIGINT NOT NULL, 
	file TEXT NOT NULL, 
	member TEXT NOT NULL, 
	number VARCHAR(64) NOT NULL, 
	time TEXT, 
	policy TEXT, 
	serial TEXT, 
	digest TEXT, 
	state TEXT, 
	PRIMARY KEY (part, file, member, number), 
	CONSTRAINT place_times_state CHECK (state = 'fits' OR state = 'fits an earlier revision' OR state = 'covers no revision of the file' OR state = 'fits, but covers only some files' OR state = 'does not fit' OR state = 'content inside' OR state = 'no digest to compare' OR state = 'digest algorithm unknown' OR state = 'content not found' OR state = 'files of the manifest not compared' OR state = 'covers more than was compared' OR state = 'content not readable' OR state = 'no signature'), 
	CONSTRAINT place_times_plain CHECK ((file || member || number || coalesce(time, '') || coalesce(policy, '') || coalesce(serial, '') || coalesce(digest, '')) NOT GLOB '*[' || char(1) || '-' || char(31) || char(127) || '-' || char(159) || ']*')
)
 WITHOUT ROWID

;
INSERT INTO "place_times" VALUES(1,'doc.tst','','','2026-11-29T01:08:06Z','1.2.3.4','2','sha256','fits');
CREATE TABLE places (
	part BIGINT NOT NULL, 
	file TEXT NOT NULL, 
	member TEXT NOT NULL, 
	length BIGINT NOT NULL, 
	size BIGINT NOT NULL, 
	changed BIGINT NOT NULL, 
	inode BIGINT NOT NULL, 
	digest BLOB, 
	kind VARCHAR(16), 
	signers BIGINT, 
	is_der BOOLEAN, 
	time TEXT, 
	reason INTEGER, 
	name VARCHAR(32), 
	at BIGINT, 
	error TEXT, 
	beside TEXT, 
	what VARCHAR(32) NOT NULL, 
	form TEXT, 
	content_type TEXT, 
	content TEXT, 
	state VARCHAR(40), 
	note TEXT, 
	findings TEXT, 
	digests TEXT, 
	signatures TEXT, 
	verdict VARCHAR(8), 
	is_settled BOOLEAN, 
	is_verified BOOLEAN, 
	library VARCHAR(32), 
	reader INTEGER, 
	worker BIGINT, 
	PRIMARY KEY (part, file, member), 
	CONSTRAINT places_digest CHECK (length(digest) = 32), 
	CONSTRAINT places_reason CHECK (reason BETWEEN 1 AND 19), 
	CONSTRAINT places_is_message CHECK ((what = 'message') = (digest IS NOT NULL)), 
	CONSTRAINT places_is_refused CHECK ((what = 'refused') = (reason IS NOT NULL)), 
	CONSTRAINT places_file CHECK (file NOT LIKE '%/%'), 
	CONSTRAINT places_is_judged CHECK (state IS NULL OR what = 'message'), 
	CONSTRAINT places_not_negative CHECK (coalesce(length, 0) >= 0 AND coalesce(size, 0) >= 0 AND coalesce(inode, 0) >= 0 AND coalesce(signers, 0) >= 0 AND coalesce(at, 0) >= 0 AND coalesce(reader, 0) >= 0), 
	CONSTRAINT places_what CHECK (what = 'message' OR what = 'container' OR what = 'container without message' OR what = 'other signed format' OR what = 'text' OR what = 'not a candidate' OR what = 'damaged' OR what = 'too large' OR what = 'refused' OR what = 'unreadable'), 
	CONSTRAINT places_state CHECK (state = 'fits' OR state = 'fits an earlier revision' OR state = 'covers no revision of the file' OR state = 'fits, but covers only some files' OR state = 'does not fit' OR state = 'content inside' OR state = 'no digest to compare' OR state = 'digest algorithm unknown' OR state = 'content not found' OR state = 'files of the manifest not compared' OR state = 'covers more than was compared' OR state = 'content not readable' OR state = 'no signature'), 
	CONSTRAINT places_kind CHECK (kind = 'signature' OR kind = 'certificates' OR kind = 'token' OR kind = 'request' OR kind = 'response'), 
	CONSTRAINT places_verdict CHECK (verdict = 'right' OR verdict = 'wrong' OR verdict = 'unknown'), 
	CONSTRAINT places_plain CHECK ((file || member || coalesce(time, '') || coalesce(name, '') || coalesce(error, '') || coalesce(beside, '') || coalesce(form, '') || coalesce(content_type, '') || coalesce(content, '') || coalesce(note, '') || coalesce(findings, '') || coalesce(digests, '') || coalesce(signatures, '') || coalesce(library, '')) NOT GLOB '*[' || char(1) || '-' || char(31) || char(127) || '-' || char(159) || ']*')
)
 WITHOUT ROWID

;
INSERT INTO "places" VALUES(1,'a.zip','',1334,1334,1795914486289001470,11108705,NULL,NULL,NULL,NULL,NULL,NULL,NULL,NULL,NULL,'','container','zip',NULL,NULL,NULL,'','','','',NULL,0,0,'unknown',3,1);
INSERT INTO "places" VALUES(1,'a.zip','r.p7m',1455,1334,1795914486289001470,11108705,X'68E96A10BE4CE42A644AB27211BC98D5DEBCF4940A3AE4AF776BDE9A43ECFDAD','signature',1,1,NULL,NULL,NULL,NULL,NULL,'','message','file','data','inside','fits','','','sha256','rsa',NULL,0,0,'unknown',3,1);
INSERT INTO "places" VALUES(1,'cut.p7s','',2,2,1795914486289114716,11108721,NULL,NULL,NULL,NULL,NULL,1,'Truncated',2,NULL,'','refused','file',NULL,NULL,NULL,'','','','',NULL,0,0,'unknown',3,1);
INSERT INTO "places" VALUES(1,'doc','',1076,1076,1795914486288578996,11108657,NULL,NULL,NULL,NULL,NULL,NULL,NULL,NULL,NULL,'','not a candidate','file',NULL,NULL,NULL,'','','','',NULL,0,0,'unknown',3,1);
INSERT INTO "places" VALUES(1,'doc.p7s','',1450,1450,1795914486288732995,11108673,X'30D094328BEAEB92B6C2440CC62D2D8342BFE7E12785FE0B7D6E3932ABB1EA7B','signature',1,1,NULL,NULL,NULL,NULL,NULL,'1076:1795914486288578996:11108657','message','file','data','doc','fits','','','sha256','rsa',NULL,0,0,'unknown',3,1);
INSERT INTO "places" VALUES(1,'doc.tst','',2288,2288,1795914486288883026,11108689,X'3AFB02DAACC12ABA6A1AA35F9E0AA941AE56F889864B58ABC8738B087D350D33','token',1,1,'2026-11-29T01:08:06Z',NULL,NULL,NULL,NULL,'1076:1795914486288578996:11108657','message','file','tSTInfo','doc','fits','','','sha256','rsa',NULL,0,0,'unknown',3,1);
INSERT INTO "places" VALUES(1,'one.7z','',6,6,1795914486289230711,11108737,NULL,NULL,NULL,NULL,NULL,NULL,NULL,NULL,NULL,'','not a candidate','file',NULL,NULL,NULL,'','','','',NULL,0,0,'unknown',3,1);
CREATE TABLE workers (
	id INTEGER NOT NULL, 
	name VARCHAR(200) NOT NULL, 
	account VARCHAR(64), 
	address VARCHAR(64), 
	backend INTEGER, 
	package VARCHAR(64) NOT NULL, 
	library VARCHAR(64) NOT NULL, 
	schema VARCHAR(64) NOT NULL, 
	began BIGINT NOT NULL, 
	seen BIGINT NOT NULL, 
	ended BIGINT, 
	parts BIGINT DEFAULT '0' NOT NULL, 
	files BIGINT DEFAULT '0' NOT NULL, 
	octets BIGINT DEFAULT '0' NOT NULL, 
	unchanged BIGINT DEFAULT '0' NOT NULL, 
	gone BIGINT DEFAULT '0' NOT NULL, 
	note TEXT, 
	PRIMARY KEY (id), 
	CONSTRAINT workers_plain CHECK ((name || coalesce(note, '')) NOT GLOB '*[' || char(1) || '-' || char(31) || char(127) || '-' || char(159) || ']*')
);
INSERT INTO "workers" VALUES(1,'vm:22856',NULL,NULL,NULL,'unknown (26513706cfc4)','76f9e7bb370b','3.3',1795914487,1795914487,1795914487,1,6,6156,0,0,NULL);
INSERT INTO "workers" VALUES(2,'vm:22855',NULL,NULL,NULL,'unknown (26513706cfc4)','76f9e7bb370b','3.3',1795914487,1795914487,1795914487,0,0,0,0,0,NULL);
INSERT INTO "workers" VALUES(3,'vm:22857',NULL,NULL,NULL,'unknown (26513706cfc4)','76f9e7bb370b','3.3',1795914487,1795914487,1795914487,0,0,0,0,0,NULL);
INSERT INTO "workers" VALUES(4,'vm:22854',NULL,NULL,NULL,'unknown (26513706cfc4)','76f9e7bb370b','3.3',1795914487,1795914487,1795914487,0,0,0,0,0,NULL);
CREATE INDEX parts_given_up ON parts (id) WHERE state = 3;
CREATE INDEX parts_taken ON parts (holder) WHERE state = 1;
CREATE INDEX parts_to_do ON parts (id) WHERE state = 0;
CREATE VIEW files AS SELECT files.path, files.member, files.length, files.size, files.changed, files.inode, CASE WHEN (files.digest IS NOT NULL) THEN lower(hex(files.digest)) END AS digest, files.kind, files.signers, files.is_der, files.time, files.reason, files.name, files.at, files.error, files.beside, files.what, files.form, files.content_type, files.content, files.state, files.note, files.findings, files.digests, files.signatures, files.verdict, files.is_settled, files.is_verified, files.library, files.reader 
FROM (SELECT CASE WHEN (parts.name = '' AND places.file = '' AND parts.path != '/') THEN rtrim(parts.path, '/') ELSE parts.path || parts.name || places.file END AS path, places.member AS member, places.length AS length, places.size AS size, places.changed AS changed, places.inode AS inode, places.digest AS digest, places.kind AS kind, places.signers AS signers, places.is_der AS is_der, places.time AS time, places.reason AS reason, places.name AS name, places.at AS at, places.error AS error, places.beside AS beside, places.what AS what, places.form AS form, places.content_type AS content_type, places.content AS content, places.state AS state, places.note AS note, places.findings AS findings, places.digests AS digests, places.signatures AS signatures, places.verdict AS verdict, places.is_settled AS is_settled, places.is_verified AS is_verified, places.library AS library, places.reader AS reader 
FROM places JOIN parts ON parts.id = places.part) AS files;
CREATE VIEW signers AS SELECT signers.path, signers.member, signers.number, signers.digest, signers.signature, signers.issuer, signers.serial, signers.key_identifier, signers.signing_time, signers.subject, signers.not_before, signers.not_after, signers."key", signers.bits 
FROM (SELECT parts.path || parts.name || place_signers.file AS path, place_signers.member AS member, place_signers.number AS number, place_signers.digest AS digest, place_signers.signature AS signature, place_signers.issuer AS issuer, place_signers.serial AS serial, place_signers.key_identifier AS key_identifier, place_signers.signing_time AS signing_time, place_signers.subject AS subject, place_signers.not_before AS not_before, place_signers.not_after AS not_after, place_signers."key" AS "key", place_signers.bits AS bits 
FROM place_signers JOIN parts ON parts.id = place_signers.part) AS signers;
CREATE VIEW times AS SELECT times.path, times.member, times.number, times.time, times.policy, times.serial, times.digest, times.state 
FROM (SELECT parts.path || parts.name || place_times.file AS path, place_times.member AS member, place_times.number AS number, place_times.time AS time, place_times.policy AS policy, place_times.serial AS serial, place_times.digest AS digest, place_times.state AS state 
FROM place_times JOIN parts ON parts.id = place_times.part) AS times;
CREATE INDEX places_by_digest ON places (digest);
COMMIT;