// A browser driven over WebDriver by fetch: chromedriver and chromium, nothing else.
import { spawn } from "node:child_process";

const ELEMENT = "element-6066-11e4-a52e-4f735466cecf";

async function ask(method, url, body) {
  const response = await fetch(url, { method, body: body && JSON.stringify(body) });
  const { value } = await response.json();
  if (value && value.error) throw new Error(`${value.error}: ${value.message}`);
  return value;
}

// The port that the driver chose is in what it prints.
function started(driver) {
  return new Promise((found, failed) => {
    let text = "";
    driver.stdout.on("data", (piece) => {
      text += piece;
      const port = text.match(/on port ([0-9]+)/g)?.pop()?.match(/[0-9]+/)[0];
      if (port && Number(port) > 0 && text.includes("successfully")) found(Number(port));
    });
    driver.on("exit", () => failed(new Error(`chromedriver ended: ${text}`)));
  });
}

export async function open(width, height) {
  const driver = spawn("chromedriver", ["--port=0"]);
  const root = `http://127.0.0.1:${await started(driver)}`;
  const options = { args: ["--headless=new", "--no-sandbox", "--disable-gpu", "--disable-dev-shm-usage", `--window-size=${width},${height}`] };
  const always = { browserName: "chrome", "goog:chromeOptions": options, "goog:loggingPrefs": { browser: "ALL" } };
  const { sessionId } = await ask("POST", `${root}/session`, { capabilities: { alwaysMatch: always } });
  const session = `${root}/session/${sessionId}`;
  const find = async (css) => (await ask("POST", `${session}/element`, { using: "css selector", value: css }))[ELEMENT];
  const run = (script, ...args) => ask("POST", `${session}/execute/sync`, { script, args });
  const tool = (cmd, params = {}) => ask("POST", `${session}/goog/cdp/execute`, { cmd, params });
  return {
    run,
    tool,
    go: (url) => ask("POST", `${session}/url`, { url }),
    keys: async (css, text) => ask("POST", `${session}/element/${await find(css)}/value`, { text }),
    click: async (css) => ask("POST", `${session}/element/${await find(css)}/click`, {}),
    // Keys as the keyboard sends them, to what has the focus.
    async press(...keys) {
      const actions = keys.flatMap((value) => [{ type: "keyDown", value }, { type: "keyUp", value }]);
      await ask("POST", `${session}/actions`, { actions: [{ type: "key", id: "keyboard", actions }] });
    },
    // A window has a least width of its own; a phone has not.
    size: (width, height) => tool("Emulation.setDeviceMetricsOverride", { width, height, deviceScaleFactor: 1, mobile: width < 600 }),
    media: (media) => tool("Emulation.setEmulatedMedia", { media }),
    picture: async () => Buffer.from(await ask("GET", `${session}/screenshot`), "base64"),
    console: () => ask("POST", `${session}/se/log`, { type: "browser" }),
    async until(what, script, ...args) {
      for (let i = 0; i < 400; i++) {
        if (await run(script, ...args)) return;
        await new Promise((done) => setTimeout(done, 25));
      }
      throw new Error(`not within ten seconds: ${what}`);
    },
    async close() {
      await ask("DELETE", session);
      driver.kill();
    },
  };
}
