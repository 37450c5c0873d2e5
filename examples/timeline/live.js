// Shows what is new on the page of a timeline, as long as it is open: it asks its application twice each second. A new post waits
// behind a button, so that nothing moves under who reads or types, and comes in with a mark. What came while the page was out of
// sight comes in at once.
"use strict";

const PAUSE = 500;
const MOST_FAILURES = 2;
const RENEW_TIMES = 20_000;
const NO_CACHE = "The cache does not answer now.";
const live = document.getElementById("live");
const news = document.getElementById("news");
const waiting = new Map();
let failures = 0;
let wasOutOfSight = false;

/** How long ago a moment was, as '2 min', and its date from a week on. `age` of pages.py says the same. */
function age(moment, now) {
  const minutes = Math.max(0, Math.floor((now - moment) / 60_000));
  if (minutes < 1) return "now";
  if (minutes < 60) return `${minutes} min`;
  if (minutes < 24 * 60) return `${Math.floor(minutes / 60)} h`;
  if (minutes < 7 * 24 * 60) return `${Math.floor(minutes / (24 * 60))} d`;
  return moment.toLocaleDateString("en-GB", {day: "numeric", month: "long", year: "numeric"});
}

function renewTimes() {
  for (const time of document.querySelectorAll("time")) {
    const moment = new Date(time.dateTime);
    time.textContent = age(moment, new Date());
    time.title = moment.toLocaleString();
  }
}

function isTyping() {
  return [...document.querySelectorAll("textarea")].some((area) => area === document.activeElement || area.value !== "");
}

/** Says something above the timeline, with a button that does what is to be done about it, or nothing. */
function say(text, label, act) {
  const said = `${text} ${label ?? ""}`;
  if (news.dataset.said === said) return;
  news.dataset.said = said;
  news.replaceChildren(text);
  if (label !== undefined) {
    const button = document.createElement("button");
    button.type = "button";
    button.textContent = label;
    button.addEventListener("click", act);
    news.append(" ", button);
  }
}

/** Loads the page again, and keeps what was typed. */
function loadAgain() {
  const area = document.querySelector("textarea");
  if (area !== null) sessionStorage.setItem(location.pathname, area.value);
  location.reload();
}

function restoreTyped() {
  const area = document.querySelector("textarea");
  const typed = sessionStorage.getItem(location.pathname);
  sessionStorage.removeItem(location.pathname);
  if (area !== null && area.value === "" && typed) area.value = typed;
}

function loadAgainOrAsk(text) {
  if (isTyping()) say(text, "Load the page again", loadAgain);
  else loadAgain();
}

/** Has a new post wait, or takes one out that has gone. */
function take(post) {
  waiting.delete(post.name);
  if (post.text !== null) waiting.set(post.name, post.text);
  else document.getElementById(post.name)?.remove();
}

/** Puts a post in its place among those that are there, the newest first, with a mark. */
function insert(name, text) {
  document.getElementById(name)?.remove();
  const made = document.createElement("template");
  made.innerHTML = text;
  const article = made.content.firstElementChild;
  article.classList.add("new");
  const moment = Number(article.dataset.moment);
  const older = [...live.querySelectorAll("article")].find((other) => Number(other.dataset.moment) < moment);
  live.insertBefore(article, older ?? null);
}

/** Shows the posts that wait. Those that came before lose their mark. */
function showWaiting() {
  for (const article of live.querySelectorAll("article.new")) article.classList.remove("new");
  waiting.forEach((text, name) => insert(name, text));
  waiting.clear();
  renewTimes();
  tell();
}

function showAndGo() {
  showWaiting();
  const first = live.querySelector("article.new");
  if (first === null) return;
  first.tabIndex = -1;
  first.focus({preventScroll: true});
  first.scrollIntoView({block: "center"});
}

/** Says how many posts wait, or that there is no cache now. */
function tell() {
  const count = waiting.size;
  const posts = count === 1 ? "1 new post" : `${count} new posts`;
  const isAway = failures >= MOST_FAILURES;
  document.getElementById("nothing").hidden = count > 0 || live.querySelector("article") !== null;
  if (count === 0) say(isAway ? NO_CACHE : "");
  else if (isAway) say(NO_CACHE, `Show ${posts}`, showAndGo);
  else say(posts, "Show", showAndGo);
}

/** What is new, or null where the page has to be loaded again, or nothing where nobody answers now. */
async function ask() {
  const {user, run, position, since} = live.dataset;
  try {
    const answer = await fetch(`/${user}/changes?${new URLSearchParams({run, position, since})}`);
    return answer.ok ? await answer.json() : undefined;
  } catch {
    return undefined;
  }
}

async function look() {
  const told = await ask();
  failures = told === undefined ? failures + 1 : 0;
  if (told === null) {
    loadAgainOrAsk("This page is no longer up to date.");
  } else if (told === undefined) {
    tell();
  } else {
    told.posts.forEach(take);
    if (wasOutOfSight && !isTyping()) showWaiting();
    else tell();
    wasOutOfSight = false;
    live.dataset.position = told.position;
    document.querySelector(".position").textContent = `at position ${told.position}`;
  }
}

/** Asks whether a page that was made without the cache can be made with it now. */
async function lookForCache() {
  try {
    if ((await fetch(location.href)).ok) loadAgainOrAsk("The cache is back.");
  } catch {
    // Nobody answers now.
  }
}

async function goOn(act) {
  try {
    if (!document.hidden) await act();
  } finally {
    setTimeout(goOn, PAUSE, act);
  }
}

document.addEventListener("visibilitychange", () => {
  if (document.hidden) wasOutOfSight = true;
});
restoreTyped();
renewTimes();
setInterval(renewTimes, RENEW_TIMES);
if (live !== null) goOn(look);
else if (document.querySelector("[data-without-cache]") !== null) goOn(lookForCache);
