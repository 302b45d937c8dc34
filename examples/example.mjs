// Converts the message in the first file named to DER, and writes it to the second.
import { readFileSync, writeFileSync } from "node:fs";
import { load } from "cms-canon";

const canon = await load();
const der = canon.convert(readFileSync(process.argv[2]));
writeFileSync(process.argv[3], der);
