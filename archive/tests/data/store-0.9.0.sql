-- A store as release 0.9.0 wrote it, as SQLite writes it out.
CREATE TABLE about ( name VARCHAR(32) NOT NULL, value TEXT NOT NULL, PRIMARY KEY (name) );
INSERT INTO about VALUES('schema','2');
INSERT INTO about VALUES('paths','["/f"]');
INSERT INTO about VALUES('host','host');
INSERT INTO about VALUES('indexed','2026-11-27 15:48 UTC');
INSERT INTO about VALUES('library','unknown');
CREATE TABLE files ( path TEXT NOT NULL, member TEXT NOT NULL, length BIGINT NOT NULL, size BIGINT NOT NULL, changed BIGINT NOT NULL,
    inode BIGINT NOT NULL, digest VARCHAR(64), kind VARCHAR(16), signers BIGINT, is_der BOOLEAN, time TEXT, reason INTEGER, name
    VARCHAR(32), at BIGINT, error TEXT, beside TEXT, what VARCHAR(32), form TEXT, content_type TEXT, content TEXT, state VARCHAR(40),
    note TEXT, findings TEXT, digests TEXT, signatures TEXT, verdict VARCHAR(8), is_settled BOOLEAN, is_verified BOOLEAN, library
    VARCHAR(32), reader INTEGER, PRIMARY KEY (path, member) );
INSERT INTO files VALUES('/f/a.zip','r.p7m',2536,1667,1795794485718927875,10970092,
    '38bd9e0d166d86d206fdaa6231ac35ab0a3857864d2df032bb5d4a788ffe3ab7','signature',1,TRUE,NULL,NULL,NULL,NULL,NULL,'','message',
    'file','data','inside','fits','','','sha256','rsa',NULL,TRUE,FALSE,'unknown',2);
INSERT INTO files VALUES('/f/a.zip','',1667,1667,1795794485718927875,10970092,NULL,NULL,NULL,NULL,NULL,NULL,NULL,NULL,NULL,'',
    'container','zip',NULL,NULL,NULL,'','','','',NULL,TRUE,FALSE,'unknown',2);
INSERT INTO files VALUES('/f/cut.p7s','',100,100,1795794485709475121,10970091,NULL,NULL,NULL,NULL,NULL,1,'Truncated',100,NULL,'',
    'refused','file',NULL,NULL,NULL,'','','','',NULL,TRUE,FALSE,'unknown',2);
INSERT INTO files VALUES('/f/doc','',1076,1076,1795794485622094745,10970087,NULL,NULL,NULL,NULL,NULL,NULL,NULL,NULL,NULL,'',
    'not a candidate','file',NULL,NULL,NULL,'','','','',NULL,TRUE,FALSE,'unknown',2);
INSERT INTO files VALUES('/f/doc.p7s','',1450,1450,1795794485659738972,10970088,
    'e4f2c97eb9bd47c81043ddb88671f357685cfc136036036c537558f98ee8f10c','signature',1,TRUE,NULL,NULL,NULL,NULL,NULL,
    '1076:1795794485622094745:10970087','message','file','data','doc','fits','','','sha256','rsa',NULL,TRUE,FALSE,'unknown',2);
INSERT INTO files VALUES('/f/doc.tst','',2288,2288,1795794485695784033,10970090,
    'f526e03dc5ece2fcbf31118235e571cc4cbbfff3fb7dd2802c0e8c712da53795','token',1,TRUE,'2026-11-27T15:48:05Z',NULL,NULL,NULL,NULL,
    '1076:1795794485622094745:10970087','message','file','tSTInfo','doc','fits','','','sha256','rsa',NULL,TRUE,FALSE,'unknown',2);
CREATE TABLE signers ( path TEXT NOT NULL, member TEXT NOT NULL, number VARCHAR(64) NOT NULL, digest TEXT, signature TEXT, issuer TEXT,
    serial TEXT, key_identifier TEXT, signing_time TEXT, subject TEXT, not_before TEXT, not_after TEXT, "key" TEXT, bits INTEGER,
    PRIMARY KEY (path, member, number) );
INSERT INTO signers VALUES('/f/a.zip','r.p7m','0','sha256','rsa','CN=Signer','4cfd6b2ad98f49037666c463b8d27e3c6003a09c',NULL,
    '2026-11-27T15:48:05Z','CN=Signer','2026-11-27T15:48:05Z','2029-05-15T15:48:05Z','RSA',2048);
INSERT INTO signers VALUES('/f/doc.p7s','','0','sha256','rsa','CN=Signer','4cfd6b2ad98f49037666c463b8d27e3c6003a09c',NULL,
    '2026-11-27T15:48:05Z','CN=Signer','2026-11-27T15:48:05Z','2029-05-15T15:48:05Z','RSA',2048);
INSERT INTO signers VALUES('/f/doc.tst','','0','sha256','rsa','CN=TSA','1179436feafae9fcfc63ce28febe773c710e5049',NULL,
    '2026-11-27T15:48:05Z','CN=TSA','2026-11-27T15:48:05Z','2029-05-15T15:48:05Z','RSA',2048);
CREATE TABLE times ( path TEXT NOT NULL, member TEXT NOT NULL, number VARCHAR(64) NOT NULL, time TEXT, policy TEXT, serial TEXT, digest
    TEXT, state TEXT, PRIMARY KEY (path, member, number) );
INSERT INTO times VALUES('/f/doc.tst','','','2026-11-27T15:48:05Z','1.2.3.4','2','sha256','fits');
CREATE INDEX files_by_digest ON files (digest);
