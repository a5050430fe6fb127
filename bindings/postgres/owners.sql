
-- The end of each script, put there by the Makefile. PostgreSQL looks for a name in the extension's own schema first,
-- and then in those of the extensions that it requires, so a type, function or operator that is in its schema already
-- may be taken for theirs. Nothing that an object of the extensions uses may be of a role that is no superuser.
SET LOCAL search_path = pg_catalog, pg_temp;
DO $$
DECLARE
  used text;
  its_owner regrole;
BEGIN
  SELECT pg_describe_object(class, number, 0), owner INTO used, its_owner
    FROM pg_extension AS e
    JOIN pg_depend AS member ON member.refclassid = 'pg_extension'::regclass AND member.refobjid = e.oid
      AND member.deptype = 'e'
    JOIN pg_depend AS its ON its.classid = member.classid AND its.objid = member.objid
    JOIN (SELECT 'pg_type'::regclass, oid, typowner FROM pg_type
      UNION ALL SELECT 'pg_proc'::regclass, oid, proowner FROM pg_proc
      UNION ALL SELECT 'pg_operator'::regclass, oid, oprowner FROM pg_operator) AS owned (class, number, owner)
      ON its.refclassid = class AND its.refobjid = number
    JOIN pg_roles AS r ON r.oid = owner
    WHERE extname IN ('s2union', 's2union_geo', 's2union_postgis') AND NOT rolsuper;
  IF FOUND THEN
    RAISE 's2union: % of role % is in the way', used, its_owner USING ERRCODE = 'insufficient_privilege',
      HINT = 'An extension uses only what superusers own. Drop this, or create the extension in another schema.';
  END IF;
END $$;
