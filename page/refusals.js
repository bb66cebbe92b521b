// What a refusal of the program means, in a sentence: which file, where in it, what was found there, and what is wanted. It reads the words
// and the texts of the call once more, looks for what the program's line names, and tells where that is. Where it finds nothing wrong it
// says nothing.

import { Call, WrongWords, drawFault, numberFault, profileFault, usageFault } from "./callfaults.js";
import { TABLE, fault, faultText, grouped } from "./faults.js";
import { pivotFault, recordFault } from "./recordfaults.js";
import { SettingFile, settingFault } from "./settingfaults.js";

/** The files of a call: their texts by their names, and how they are called; a name that is empty is none. */
class Files {
  constructor(call, texts, names) {
    Object.assign(this, { call, texts, names });
  }

  text(argument) {
    return this.texts[this.call.given[argument]];
  }

  called(argument) {
    const { called, is_named: isNamed } = TABLE.files[argument];
    const word = this.call.given[argument];
    const name = this.names[word] ?? word;
    return name === "" ? called : isNamed ? `${called} ${name}` : name;
  }

  /** What is wrong in a file, in a sentence that begins with its place. */
  tells(argument, found) {
    if (found === null) {
      return null;
    }
    const line = found.at === null ? null : this.text(argument).slice(0, found.at).split("\n").length;
    const place = line === null ? this.called(argument) : `${this.called(argument)}, line ${line}`;
    return { text: `${place}: ${faultText(found)}`, line };
  }

  /** That a file is too long. */
  tellsLength(argument) {
    const { limit } = TABLE.files[argument];
    const isLong = new TextEncoder().encode(this.text(argument)).length > limit;
    return this.tells(argument, isLong ? fault("file.long", { wanted: `${grouped(limit)} bytes` }) : null);
  }
}

/** What is wrong with words, which are in no file. */
function bare(found) {
  return found && { text: faultText(found), line: null };
}

function askedOf(files) {
  const { command, units, options } = files.call;
  return { command, units: "--units" in options ? units : null, setting: new SettingFile(files.text("SETTING")) };
}

/** What is wrong with the setting. */
function ofSetting(files, cause) {
  const { command, options } = files.call;
  return cause === "too long"
    ? files.tellsLength("SETTING")
    : files.tells("SETTING", settingFault(files.text("SETTING"), cause, command, "--units" in options));
}

/** What is wrong with the second file. */
function ofSecond(files, cause) {
  const argument = files.call.second;
  if (cause === "too long") {
    return files.tellsLength(argument);
  }
  const found = recordFault(askedOf(files), TABLE.files[argument].kind ?? "", files.text(argument), cause);
  return files.tells(found?.isOfSetting ? "SETTING" : argument, found);
}

/** What of the words does not fit the files. */
function ofWords(files, told) {
  const [, pivot] = /^pivot (\d+) refused$/.exec(told) ?? [];
  if (pivot !== undefined) {
    return files.tells("PIVOTS", pivotFault(askedOf(files), files.text("PIVOTS"), Number(pivot)));
  }
  if (told === "number refused") {
    return bare(numberFault(files.call));
  }
  const setting = new SettingFile(files.text("SETTING"));
  return bare(told === "profile refused" ? profileFault(files.call, setting) : drawFault(files.call, setting, files.text("ANSWER") ?? ""));
}

function meaningOf(words, told, texts, names) {
  if (told === "usage") {
    return bare(usageFault(words));
  }
  const files = new Files(new Call(words), texts, names);
  const [, of, cause] = /^(setting|answer) refused: (.*)$/.exec(told) ?? [];
  return of === undefined ? ofWords(files, told) : (of === "setting" ? ofSetting : ofSecond)(files, cause);
}

/** What a refusal means: `text`, the sentence, and `line`, that of the file, or null. Null where nothing is found. `told` is what the
 * program wrote, `texts` has the texts of the files by the words that name them, and `names` what these are called, where that is
 * something else; empty for none. */
export function explained(words, told, texts, names = {}) {
  try {
    return meaningOf(words, told.trim().replace(/^mechdes: /, ""), texts, names);
  } catch (wrong) {
    if (wrong instanceof WrongWords || wrong instanceof TypeError || wrong instanceof SyntaxError || wrong instanceof RangeError) {
      return null;
    }
    throw wrong;
  }
}

/** The text of a sentence as one that stands alone. */
export function asSentence(text) {
  return `${text[0].toUpperCase()}${text.slice(1)}${text.endsWith("?") ? "" : "."}`;
}
