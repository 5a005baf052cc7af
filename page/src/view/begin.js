// What runs first: it unpacks the page's code, and runs it.
import { unpacked } from "../exact/unpacked.js";

async function begin() {
  const script = document.createElement("script");
  script.textContent = await unpacked(document.getElementById("page-code").textContent, "deflate").text();
  document.body.append(script);
}

begin().catch(() => document.querySelector("main").prepend("This page needs a browser from 2023 or later."));
