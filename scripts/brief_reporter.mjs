// A reporter for `node --test`: each test that fails or is skipped, and then how many there were.
export default async function* brief(events) {
  const seen = { "test:pass": 0, "test:fail": 0 };
  for await (const { type, data } of events) {
    if (!(type in seen) || data.details?.type === "suite") continue;
    if (data.skip !== undefined) {
      yield `loader: ${data.name}: skipped: ${data.skip}\n`;
      continue;
    }
    seen[type] += 1;
    if (type === "test:fail") yield `${data.name}: ${data.details.error?.cause?.stack ?? data.details.error}\n`;
  }
  yield `loader: ${seen["test:pass"] + seen["test:fail"]} tests, ${seen["test:fail"]} wrong\n`;
}
