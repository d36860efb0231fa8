// The calls of a client by node's http2. Usage: node client.mjs FOLDER [CASE..]; a line for each case.
import crypto from "node:crypto";
import http2 from "node:http2";
import net from "node:net";

const folder = process.argv[2];
const API = "/SpiffeWorkloadAPI/", HEALTH = "/grpc.health.v1.Health/";
const DOMAIN = "spiffe://example.org";
const SECURITY = { "workload.spiffe.io": "true" };

const connect = (name) =>
  http2.connect("http://localhost", { createConnection: () => net.connect(`${folder}/${name}.sock`) });

// The first `count` messages of a call, and its status where it ends before.
function call(session, path, { count = 1, request = Buffer.alloc(0), headers = SECURITY } = {}) {
  return new Promise((resolve, reject) => {
    const stream = session.request({ ":method": "POST", ":path": path, "content-type": "application/grpc", te: "trailers", ...headers });
    const timer = setTimeout(() => reject(new Error("no answer in 30 seconds")), 30000);
    let bytes = Buffer.alloc(0), status = null;
    const messages = [];
    const finish = () => { clearTimeout(timer); resolve({ messages, status }); };
    stream.on("response", (head) => { status = head["grpc-status"] ?? status; });
    stream.on("trailers", (tail) => { status = tail["grpc-status"] ?? status; });
    stream.on("data", (piece) => {
      bytes = Buffer.concat([bytes, piece]);
      while (bytes.length >= 5 && bytes.length >= 5 + bytes.readUInt32BE(1)) {
        const end = 5 + bytes.readUInt32BE(1);
        messages.push(bytes.subarray(5, end));
        bytes = bytes.subarray(end);
      }
      if (messages.length >= count) { stream.close(http2.constants.NGHTTP2_CANCEL); finish(); }
    });
    stream.on("end", finish);
    stream.on("error", (error) => { clearTimeout(timer); reject(error); });
    const prefix = Buffer.alloc(5);
    prefix.writeUInt32BE(request.length, 1);
    stream.end(Buffer.concat([prefix, request]));
  });
}

async function on(name, path, how) {
  const session = connect(name);
  session.on("error", () => {});
  try { return await call(session, path, how); } finally { session.destroy(); }
}

// The fields of a message that have bytes: [number, bytes] (the Protocol Buffers wire format).
function fields(message) {
  const found = [];
  let at = 0;
  const varint = () => {
    let value = 0, scale = 1;
    for (;;) {
      const byte = message[at++];
      value += (byte & 127) * scale;
      scale *= 128;
      if (byte < 128) return value;
    }
  };
  while (at < message.length) {
    const key = varint(), size = varint();
    if (key % 8 !== 2) throw new Error("a field without bytes");
    found.push([Math.floor(key / 8), message.subarray(at, at + size)]);
    at += size;
  }
  return found;
}

const field = (message, number) => fields(message).find(([it]) => it === number)?.[1] ?? Buffer.alloc(0);
// the SVIDs or tokens of a response, or the items of a map
const items = (response) => fields(response).filter(([it]) => it === 1).map(([, it]) => it);

function expect(holds, what) {
  if (!holds) throw new Error(what);
}

// The leaf is issued by a certificate of the bundle, and names the id and the DNS names alone; the key is its key.
function checkX509(svid, name, hint, dnsNames) {
  expect(field(svid, 1).toString() === `${DOMAIN}/${name}` && field(svid, 5).toString() === hint, `the id ${field(svid, 1)}, the hint ${field(svid, 5)}`);
  const leaf = new crypto.X509Certificate(field(svid, 2)), root = new crypto.X509Certificate(field(svid, 4));
  expect(root.ca && !leaf.ca && leaf.checkIssued(root) && leaf.verify(root.publicKey), "the path to the bundle");
  expect(new Date(leaf.validFrom) <= new Date() && new Date() < new Date(leaf.validTo), "the times of the leaf");
  const names = [`URI:${DOMAIN}/${name}`, ...dnsNames.map((it) => `DNS:${it}`)].join(", ");
  expect(leaf.subjectAltName === names, `the names ${leaf.subjectAltName}`);
  const key = crypto.createPrivateKey({ key: field(svid, 3), format: "der", type: "pkcs8" });
  expect(leaf.checkPrivateKey(key), "the key is not the certificate's");
}

// The token is signed by a key of the bundle (RFC 7518, section 3.4), and says who, for whom and until when.
function checkToken(given, jwks, name, hint, audience) {
  expect(field(given, 1).toString() === `${DOMAIN}/${name}` && field(given, 3).toString() === hint, `the id ${field(given, 1)}, the hint ${field(given, 3)}`);
  const [head, claims, signature] = field(given, 2).toString().split(".");
  const read = (part) => JSON.parse(Buffer.from(part, "base64url"));
  const jwk = JSON.parse(jwks).keys.find((it) => it.kid === read(head).kid);
  expect(jwk && read(head).alg === "ES256", "the bundle has no such key");
  const key = crypto.createPublicKey({ key: jwk, format: "jwk" });
  const signed = Buffer.from(`${head}.${claims}`);
  expect(crypto.verify("sha256", signed, { key, dsaEncoding: "ieee-p1363" }, Buffer.from(signature, "base64url")), "the signature");
  const { sub, aud, exp } = read(claims), left = exp - Date.now() / 1000;
  expect(sub === `${DOMAIN}/${name}` && JSON.stringify(aud) === JSON.stringify(audience) && left > 0 && left <= 360, `the claims ${sub} ${aud} ${exp}`);
}

// The X.509-SVIDs of a socket are these, and no others.
async function given(name, ...wanted) {
  const svids = items((await on(name, API + "FetchX509SVID")).messages[0]);
  expect(svids.length === wanted.length, `${svids.length} SVIDs`);
  wanted.forEach((it, at) => checkX509(svids[at], ...it));
  return true;
}

async function token() {
  const bundles = items((await on("web", API + "FetchJWTBundles")).messages[0]);
  const tokens = items((await on("web", API + "FetchJWTSVID", { request: Buffer.from("\x0a\x02db\x0a\x05cache") })).messages[0]);
  expect(bundles.length === 1 && field(bundles[0], 1).toString() === DOMAIN && tokens.length === 1, `${bundles.length} bundles, ${tokens.length} tokens`);
  checkToken(tokens[0], field(bundles[0], 2), "web", "internal", ["db", "cache"]);
  return true;
}

const has = async (name, path, wanted, how) => (await on(name, path, how)).messages[0].includes(wanted);
const ends = async (name, status, headers) => (await on(name, API + "FetchX509SVID", { headers })).status === status;

async function cancelled() {
  const session = connect("web");
  for (let i = 0; i < 50; i++) await call(session, API + "FetchX509SVID");
  session.close();
  return true;
}

async function rotation() {
  const { messages } = await on("rotating", API + "FetchX509SVID", { count: 4 });
  return new Set(messages.map((it) => it.toString("hex"))).size === 4;
}

async function stopsReading() {
  const stuck = [connect("large"), connect("large"), connect("large")];
  for (const it of stuck) {
    const stream = it.request({ ":method": "POST", ":path": API + "FetchX509SVID", "content-type": "application/grpc", te: "trailers", ...SECURITY });
    stream.on("error", () => {});
    stream.end(Buffer.alloc(5));
    stream.pause();
  }
  await new Promise((next) => setTimeout(next, 1000));
  const served = (await on("large", API + "FetchX509SVID")).messages[0].length > 1048576;
  for (const it of stuck) it.destroy();
  return served;
}

const CASES = {
  x509: () => given("web", ["web", "internal", ["web.example.org", "api.example.org"]]),
  selectors: () => given("team", ["both", "team", ["both.example.org"]], ["zone", "zone", []]),
  x509_bundles: () => has("web", API + "FetchX509Bundles", "spiffe://example.org"),
  jwt: token,
  jwt_bundles: () => has("web", API + "FetchJWTBundles", "keys"),
  check: () => has("web", HEALTH + "Check", "\x08\x01"),
  watch: () => has("web", HEALTH + "Watch", "\x08\x01"),
  denied: () => ends("nobody", "7", SECURITY),
  no_header: () => ends("web", "3", {}),
  cancelled,
  rotation,
  above_64_kib: async () => (await on("middle", API + "FetchX509SVID")).messages[0].length > 65536,
  above_1_mib: async () => (await on("large", API + "FetchX509SVID")).messages[0].length > 1048576,
  stops_reading: stopsReading,
};

const asked = process.argv.slice(3);
for (const [name, run] of Object.entries(CASES)) {
  if (asked.length && !asked.includes(name)) continue;
  let said;
  try { said = (await run()) ? "ok" : "FAILED another answer"; } catch (error) { said = `FAILED ${error.message}`; }
  console.log(`${name} ${said}`);
}
