// Times conversions by the package for JavaScript, with the copies in and out, and prints the least seconds of some runs of each file.
//     node module.mjs PACKAGE RUNS FILE..
import { readFileSync } from "node:fs";
import { pathToFileURL } from "node:url";

const [folder, runs, ...files] = process.argv.slice(2);
const { load } = await import(new URL("cms_canon.mjs", pathToFileURL(`${folder}/`)));
const canon = await load();
const SHORT = 0.001; // seconds: what takes less is called many times
const WARM = 0.5; // seconds in which the engine compiles what is called often

for (const file of files) {
    const octets = readFileSync(file);
    let least = Infinity;
    for (const began = performance.now(); performance.now() - began < 1000 * WARM; ) canon.convert(octets);
    for (let run = 0; run < Number(runs); run++) {
        let calls = 0;
        const began = performance.now();
        do {
            canon.convert(octets);
            calls += 1;
        } while (performance.now() - began < 1000 * SHORT);
        least = Math.min(least, (performance.now() - began) / 1000 / calls);
    }
    console.log(least);
}
