// The page of a map by itself. Its address may end with #layer=2&step=3&shows=0 width&cell=1,8,17;1,2,3.
import { HeadMap } from "./map.mjs";
import { scene_of } from "./packed.mjs";

const root = document.getElementById("heads-map"), said = root.querySelector(".said");

function asked_for() {
    const words = new URLSearchParams(location.hash.slice(1)), number = (name) => Number(words.get(name)) || undefined;
    const cells = (words.get("cell") ?? "").split(";").map((text) => text.split(",").map(Number));
    return { layer: number("layer"), step: number("step"), shows: words.get("shows"), cells: cells.filter((it) => it.length === 3) };
}

async function begin() {
    const map = new HeadMap(root), scene = await scene_of(JSON.parse(document.getElementById("data").textContent));
    const show = () => map.show(scene, asked_for());
    window.addEventListener("hashchange", show);
    show();
}

if (typeof DecompressionStream === "undefined") said.textContent = "This browser is too old for the map.";
else begin().catch((error) => (said.textContent = `The map can't be drawn: ${error.message ?? error}`));
