// What browsers have and the compiler does not know: a method of arrays, and an event of dialogs.

interface Array<T> {
  findLast(isWanted: (value: T, index: number, all: T[]) => boolean): T | undefined;
}

interface ReadonlyArray<T> {
  findLast(isWanted: (value: T, index: number, all: readonly T[]) => boolean): T | undefined;
}

interface HTMLElementEventMap {
  cancel: Event;
}
