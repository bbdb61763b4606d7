// What is said of two schemas that are compared, by the answer of the call.

/** The answer, and its lines: those behind the first are indented by two spaces, and each has a line end. */
export function comparisonOf(kind, text) {
  const answer = answerIn(kind, text);
  const [first, ...lines] = text.split("\n");
  const changes = lines.slice(0, -1).map((line) => line.slice(2));
  const evidence = answer === "incompatible" ? changes.shift() : undefined;
  const isCompatible = kind === "yes";
  if (!isCompatible) changes.unshift(first.slice(first.indexOf(": ") + 2));
  const hasSameJson = isCompatible && first.endsWith(", with the same JSON");
  return { answer, isCompatible, hasSameJson, changes, evidence, text };
}

function answerIn(kind, text) {
  if (kind === "yes") return text.startsWith("the same") ? "the same" : "compatible";
  return kind === "no" ? "incompatible" : "not known";
}
