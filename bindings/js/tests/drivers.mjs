// Regions through node-postgres, of the server that PGHOST names: each union goes into a column and comes back, as
// bytes and as a text, and cells do as numbers; and an exact join finds the pairs of plain boxes. The last line is
// 'N passed, M failed'.
import pg from "pg";
import {CellUnion, children, load} from "s2union";
import {fromLngLats} from "s2union/geo";

let passed = 0, failed = 0;
function check(holds, ...what) {
  holds ? passed++ : failed++;
  if (!holds) console.log("FAILED", ...what);
}

function wkb([west, south, east, north]) { // a box, little-endian
  const ring = [west, south, east, south, east, north, west, north, west, south];
  const view = new DataView(new ArrayBuffer(13 + 8 * ring.length));
  view.setUint8(0, 1);
  [3, 1, ring.length / 2].forEach((word, k) => view.setUint32(1 + 4 * k, word, true));
  ring.forEach((number, k) => view.setFloat64(13 + 8 * k, number, true));
  return Buffer.from(view.buffer);
}

await load();
const client = new pg.Client();
await client.connect();
const ask = async (text, ...words) => (await client.query(text, words)).rows;
await ask("SET client_min_messages = error");
await ask("CREATE EXTENSION IF NOT EXISTS s2union_geo CASCADE");

await ask("CREATE TEMP TABLE woods (id int, region s2union, leaf bigint)");
const many = fromLngLats(Array.from({length: 5000}, (_, k) => [k % 360 - 180, k % 177 - 88]));
const unions = ["", "04 0c", "1 3 5 7 9 b", "89c25 1/0123", "b"].map((text) => CellUnion.fromTokens(text));
for (const [id, union] of [...unions, new CellUnion(many)].entries()) {
  const last = BigInt.asIntN(64, 0xbfffffffffffffffn - 2n * BigInt(id));
  await ask("INSERT INTO woods VALUES ($1, $2::bytea::s2union, $3)", id, union.encode(), last);
  const all = "region::bytea AS file, region::text AS text, leaf, region = $2::bytea::s2union AS found";
  const [{file, text, leaf, found}] = await ask(`SELECT ${all} FROM woods WHERE id = $1`, id, union.encode());
  check(CellUnion.decode(file).equals(union), "bytes", id);
  check(CellUnion.fromTokens(text).equals(union), "text", id);
  check(BigInt(leaf) === last, "cell", leaf);
  check(found, "compared", id);
}
const [{count}] = await ask("SELECT count(*) FROM woods WHERE region @> $1::bigint",
  BigInt.asIntN(64, children(children(0x1000000000000000n)[0])[1]));
check(count === "2", "a parameter that is a cell", count);
const {message} = await ask("SELECT $1::bytea::s2union", Buffer.from([2])).catch((error) => error);
check(/union file: unknown version/.test(message), message);

const boxes = Array.from({length: 30}, (_, k) => [k * 11 % 90, k * 7 % 40, k * 11 % 90 + 5 + k, k * 7 % 40 + 9]);
await ask("CREATE TABLE node_zones (id int PRIMARY KEY, shape bytea)");
for (const [id, box] of boxes.entries()) await ask("INSERT INTO node_zones VALUES ($1, $2)", id, wkb(box));
await ask("SELECT s2_join_table('node_zones', 'shape', max_cells => 20)");
const x = Array.from({length: 4000}, (_, k) => k * 37 % 1300 / 10), y = x.map((_, k) => k * 53 % 620 / 10);
const pairs = await ask(`SELECT p.id::int - 1 AS point, z.id AS zone
  FROM unnest($1::float8[], $2::float8[]) WITH ORDINALITY AS p (x, y, id), node_zones_at(p.x, p.y) AS z`, x, y);
const wanted = x.flatMap((_, k) => boxes.flatMap(([west, south, east, north], zone) =>
  west <= x[k] && x[k] <= east && south <= y[k] && y[k] <= north ? [`${k} ${zone}`] : []));
const found = pairs.map(({point, zone}) => `${point} ${zone}`);
check(wanted.length > 1000 && wanted.sort().join() === found.sort().join(), "join", wanted.length, found.length);
await ask("DROP TABLE node_zones CASCADE");
await client.end();
console.log(`${passed} passed, ${failed} failed`);
process.exit(failed ? 1 : 0);
