// Callbacks of the application.

/** Calls one. What it throws stops neither the others nor the database: it is told as an error that nobody caught. */
export function call<Words extends unknown[]>(callback: (...words: Words) => unknown, ...words: Words): void {
  tried(() => callback(...words));
}

/** Keeps a callback among others until it is stopped. One that is handed over twice is called twice. */
export function kept<Words extends unknown[]>(listeners: Set<(...words: Words) => void>, callback: (...words: Words) => void): () => void {
  const mine = (...words: Words): void => callback(...words);
  listeners.add(mine);
  return () => void listeners.delete(mine);
}

/** What work answers, or null where it throws, which is told as an error that nobody caught. */
export function tried<Answer>(work: () => Answer): Answer | null {
  try {
    return work();
  } catch (error) {
    queueMicrotask(() => { throw error; });
    return null;
  }
}
