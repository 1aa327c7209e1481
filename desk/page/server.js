// The server: what the page asks it, and the token that lets the page in.
import { desk } from "./shared.js";

// The address that altdesk prints has the token behind the #. It stays with this tab and with others of this page, for
// no other page or port to read. The rest behind the # says what to show: a design, and a feature of it.
const tabs = new BroadcastChannel("desk");
// Behind a web server nobody needs a token: that knows who somebody is. The header says then that it is this page that
// asks.
const isBehind = document.documentElement.classList.contains("behind");

export async function begin() {
  const given = new URLSearchParams(location.hash.slice(1));
  if (isBehind) return given;
  if (given.get("token")) sessionStorage.setItem("token", given.get("token"));
  if (!sessionStorage.getItem("token")) await askOtherTabs();
  tabs.onmessage = ({ data }) => data === "token?" && tabs.postMessage({ token: sessionStorage.getItem("token") });
  given.delete("token");
  history.replaceState(null, "", `${location.pathname}${given.size ? `#${given}` : ""}`);
  return given;
}

// A link that is opened in a tab of its own is let in by those that are.
function askOtherTabs() {
  return new Promise((done) => {
    setTimeout(done, 300);
    tabs.onmessage = ({ data }) => {
      if (data.token) sessionStorage.setItem("token", data.token);
      if (data.token) done();
    };
    tabs.postMessage("token?");
  });
}

async function answerTo(path, words, how) {
  const headers = { ...how.headers, "X-Desk-Token": isBehind ? "behind" : sessionStorage.getItem("token") || "" };
  const answer = await fetch(`api/${path}?${new URLSearchParams(words)}`, { ...how, headers });
  if (answer.status === 403) throw new Error(await answer.text());
  if (answer.ok) return answer;
  const told = await answer.json();
  throw Object.assign(new Error(told.fault), { now: told.now });
}

export const ask = async (path, words, how = {}) => (await answerTo(path, words, how)).json();
export const askPicture = async (path, words, how) => (await answerTo(path, words, how)).blob();

const post = (path, it) =>
  ask(path, {}, { method: "POST", headers: { "Content-Type": "application/json" }, body: JSON.stringify(it) });

// Sends what a person does, with what the person saw.
export const send = (it) => post("batch", { at: desk.at, seen: desk.design.batch, epoch: desk.state.epoch, ...it });

// Has the store pull from HEAD, or push there. The answer comes once that is done.
export const carry = (it) => post("office", it);
