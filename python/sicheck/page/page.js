"use strict";
// Chooses findings by kind and key. Without this script all findings are shown.
(function () {
  const form = document.getElementById("choose");
  const opened = () => document.querySelectorAll("details:not([open])").forEach((one) => {
    one.open = true;
    one.dataset.forPrint = "";
  });
  const closed = () => document.querySelectorAll("details[data-for-print]").forEach((one) => {
    one.open = false;
    delete one.dataset.forPrint;
  });
  window.addEventListener("beforeprint", opened);
  window.addEventListener("afterprint", closed);
  if (!form) return;
  const kind = document.getElementById("choose-kinds");
  const key = document.getElementById("choose-keys");
  const count = document.getElementById("shown-count");
  const findings = Array.from(document.querySelectorAll("article.finding"));
  const sections = Array.from(document.querySelectorAll("section.kind"));

  function choose() {
    let shown = 0;
    for (const one of findings) {
      one.hidden = (kind.value && one.dataset.kind !== kind.value) || (key.value && one.dataset.key !== key.value);
      if (!one.hidden) shown += 1;
    }
    for (const one of sections) {
      one.hidden = (kind.value && one.dataset.kind !== kind.value) || !one.querySelector("article.finding:not([hidden])");
    }
    if (!kind.value && !key.value) for (const one of sections) one.hidden = false;
    count.textContent = shown + " of " + findings.length + " shown";
  }

  // A link to a finding that isn't chosen shows all again.
  function follow() {
    const target = document.getElementById(decodeURIComponent(location.hash.slice(1)));
    if (!target || !target.closest("[hidden]")) return;
    kind.value = key.value = "";
    choose();
    target.scrollIntoView();
  }

  form.hidden = false;
  form.addEventListener("change", choose);
  window.addEventListener("hashchange", follow);
  choose();
})();
