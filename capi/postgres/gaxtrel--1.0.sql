-- Whether a line of a text is matched; the first part of a text that is matched and not empty, or NULL.
CREATE FUNCTION gaxtrel_match(text, pattern text) RETURNS bool
    AS 'MODULE_PATHNAME' LANGUAGE C STRICT IMMUTABLE PARALLEL SAFE COST 10;
CREATE FUNCTION gaxtrel_part(text, pattern text) RETURNS text
    AS 'MODULE_PATHNAME', 'gaxtrel_part_of' LANGUAGE C STRICT IMMUTABLE PARALLEL SAFE COST 10;
