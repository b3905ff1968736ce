\echo Use "CREATE EXTENSION hlc" to load this file. \quit

CREATE FUNCTION hlc_now() RETURNS bigint
AS 'MODULE_PATHNAME', 'sql_hlc_now'
LANGUAGE C VOLATILE PARALLEL RESTRICTED;
COMMENT ON FUNCTION hlc_now() IS 'the stamp of a new event of this server';

CREATE FUNCTION hlc_send(message text) RETURNS bigint
AS 'MODULE_PATHNAME', 'sql_hlc_send'
LANGUAGE C VOLATILE STRICT PARALLEL RESTRICTED;
COMMENT ON FUNCTION hlc_send(text) IS 'the stamp of a new event, the send of the message that has this name';

CREATE FUNCTION hlc_merge(stamp bigint, message text) RETURNS bigint
AS 'MODULE_PATHNAME', 'sql_hlc_merge'
LANGUAGE C VOLATILE STRICT PARALLEL RESTRICTED;
COMMENT ON FUNCTION hlc_merge(bigint, text) IS 'the stamp of a new event, the receive of the message that has this name and carries this stamp';

CREATE FUNCTION hlc_node() RETURNS text
AS 'MODULE_PATHNAME', 'sql_hlc_node'
LANGUAGE C STABLE PARALLEL SAFE;
COMMENT ON FUNCTION hlc_node() IS 'the name of this node: hlc.node';

-- These go by hlc.bits, which stays as it is as long as the server has its stamps.
CREATE FUNCTION hlc_pack(l bigint, c bigint) RETURNS bigint
AS 'MODULE_PATHNAME', 'sql_hlc_pack'
LANGUAGE C IMMUTABLE STRICT PARALLEL SAFE;
COMMENT ON FUNCTION hlc_pack(bigint, bigint) IS 'the stamp (l, c)';

CREATE FUNCTION hlc_l(stamp bigint) RETURNS bigint
AS 'MODULE_PATHNAME', 'sql_hlc_l'
LANGUAGE C IMMUTABLE STRICT PARALLEL SAFE;
COMMENT ON FUNCTION hlc_l(bigint) IS 'l of a stamp: what some clock read, in hlc.unit';

CREATE FUNCTION hlc_c(stamp bigint) RETURNS bigint
AS 'MODULE_PATHNAME', 'sql_hlc_c'
LANGUAGE C IMMUTABLE STRICT PARALLEL SAFE;
COMMENT ON FUNCTION hlc_c(bigint) IS 'c of a stamp, which tells stamps of one l apart';

-- A merge takes the clock along, by up to hlc.limit: it is for the role that applies what other nodes send.
REVOKE EXECUTE ON FUNCTION hlc_merge(bigint, text) FROM PUBLIC;
