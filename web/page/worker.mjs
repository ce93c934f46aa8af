// The program in a worker: first comes its module, then each run.
import { FuotaError, load } from "../fuota.mjs";

let library = null;

self.addEventListener("message", async ({ data }) => {
  if (data instanceof WebAssembly.Module) {
    library = load(data);
    return;
  }
  try {
    const began = performance.now();
    const { status, output } = (await library).run(data.line, data.files);
    self.postMessage({ status, output, ms: performance.now() - began }, [output.buffer]);
  } catch (fault) {
    // (after a trap the module's memory is whatever the call left)
    self.postMessage({ fault: fault instanceof FuotaError ? `${fault.name}: ${fault.message}` : `the module stopped: ${fault.message}` });
    if (!(fault instanceof FuotaError)) self.close();
  }
});
