//! Faults that can be planted in the model: those that docs/SCOPE.md names as traps, and others of the same sort.

macro_rules! faults {
    ($($fault:ident $name:literal $what:literal;)*) => {
        #[derive(Clone, Copy, Debug, PartialEq, Eq)]
        pub enum Fault { $(#[doc = $what] $fault),* }

        impl Fault {
            /// Each fault with its name.
            pub const ALL: &'static [(Fault, &'static str)] = &[$((Fault::$fault, $name)),*];
        }
    };
}

faults! {
    FlagEqualsOne "flag-equals-one" "a flag is true only if it is 1";
    PadNotSkipped "pad-not-skipped" "the bytes after an opaque's content are not passed over";
    PadMustBeZero "pad-must-be-zero" "a pad byte that is not zero ends the message";
    PadUnseen "pad-unseen" "dirty padding is called plain";
    LengthWraps "length-wraps" "an opaque's end is worked out in 32 bits";
    ListBounded "list-bounded" "a list of more than 16 words is refused";
    TagTwoRefused "tag2-refused" "rpc_body's tag 2 is refused";
    EnumerationGap "enumeration-gap" "nfsstat3 takes 29, which no one declared";
    TimeTagTolerated "time-tag-tolerated" "an undeclared tag of set_atime or set_mtime is read as 0";
    PlaceOfWord "place-of-word" "a short list is refused at the missing word, not at its first byte";
    BoundOffByOne "bound-off-by-one" "a message of 1,048,576 bytes is refused";
    CredentialAfterVersion "cred-after-version" "rpcvers is looked at before the credential";
    SeenBeforeVersion "seen-before-version" "a message seen before is dropped before rpcvers is looked at";
    CredentialToTheEnd "cred-to-the-end" "auth_unix is read with the message's end as its end";
    ReplyTaken "reply-taken" "a REPLY that reaches the choice is answered";
    LastBit30 "last-bit-30" "bit 30 of a fragment header says last";
    SumUnchecked "sum-one-over" "a fragment may pass the record buffer's end by one";
    CompleteLate "complete-late" "an empty last fragment does not complete the record";
    FragmentNotLast "fragment-not-last" "write_fragment leaves out bit 31";

    HeaderForgotten "header-forgotten" "header bytes at the end of a run are forgotten";
    LeftForgotten "left-forgotten" "at the end of a run it is forgotten what is left of the fragment";
    EmptyRunAnew "empty-run-anew" "an empty run begins the record anew";
    StopUses "stop-uses" "after a stop a byte is used";

    StatusOpen "status-open" "an undeclared status of a result is a failure";
    StatusPlace "status-place" "an undeclared status is refused at the place behind it";
    FailureAsSuccess "failure-as-success" "a failure has what a success has";
    FailureBare "failure-bare" "nothing behind the status of a failure is read";
    StableThree "stable-three" "WRITE's stable and committed may be 3";
    EofEqualsOne "eof-equals-one" "READ's eof is true only if it is 1";
    VerifierCounted "verf-counted" "WRITE's verifier begins with its length";

    SystemErrGarbage "system-err-garbage" "in the current reading the accept status 5 is GARBAGE_ARGS";
    SystemErrInCrate "system-err-in-crate" "in the crate's reading the accept status 5 is a case of its own";
    SystemErrBehind "system-err-behind" "two words behind the accept status 5 are read with it";
    SystemErrRewritten "system-err-rewritten" "the accept status 5 is rewritten as 4, and called plain";
    StatusSixPlain "status-six-plain" "in the current reading the accept status 6 is taken as it came, and called plain";
    AcceptStatFour "accept-stat-four" "current_accept_stat refuses 5";
    AuthFifteen "auth-fifteen" "in the current reading auth_stat 15 is taken";
    AuthZeroRefused "auth-zero-refused" "in the current reading auth_stat 0 is refused";
    AuthToFive "auth-to-five" "in the current reading auth_stat goes to 5 only";
    AuthAllInCrate "auth-all-in-crate" "the crate's reading takes all authentication numbers";
    CurrentNamesZero "current-names-zero" "in the current reading the reply to another version of RPC names 0 and 0";
    CrateNamesTwo "crate-names-two" "in the crate's reading the reply to another version of RPC names 2 and 2";
    ChosenByCrate "chosen-by-crate" "the choice of program in the current reading reads as the crate does";
    CurrentTellsFour "current-tells-four" "the current reader of headers tells the accept status 5 as 4";
    CrateTellsFive "crate-tells-five" "the crate's reader of headers tells the accept status 5 as 5";
    SystemErrWrittenFour "system-err-written-4" "the current writer of replies writes 4 for the accept status 5";
    ReplyTakesFive "reply-takes-five" "the crate's writer of replies takes the accept status 5";
    ReplyReasonFive "reply-reason-five" "the current writer of replies takes auth_stat 1 to 5 only";

    LongAtOnce "long-at-once" "a path over the bound is refused before what stands behind its length is looked at";
    PathOneMore "path-one-more" "a path of 1,025 bytes is taken";
    PathOneLess "path-one-less" "a path of 1,024 bytes is refused";
    LastLong "last-long" "of several paths over the bound the last is told";
    LongPlaceContent "long-place-content" "the place of a path over the bound is that of its first byte";
    LongPlaceFlag "long-place-flag" "the place of a path over the bound is that of the word before it";
    NameBounded "name-bounded" "a name of more than 255 bytes is refused";
    NamePadKept "name-pad-kept" "the padding of a name is rewritten as it came";
    ChainFlagOne "chain-flag-one" "an entry or a name is there only if its flag is 1";
    MountstatOfNfs "mountstat-of-nfs" "mountstat3 has the numbers of nfsstat3";
    MismatchLowOne "mismatch-low-one" "the reply to another version of a program names 1 as the lowest";
    MismatchNamesThree "mismatch-names-three" "the reply to another version of the port mapper names 3 and 3";
    NullBeforeVersion "null-before-version" "procedure 0 is replied to in every version";
    DumpAsMnt "dump-as-mnt" "DUMP is taken as MNT";
    UmntAllAsUmnt "umntall-as-umnt" "UMNTALL is taken as UMNT";
    UmntAsMnt "umnt-as-mnt" "UMNT is told as MNT";
    SetAsGetport "set-as-getport" "SET is taken as GETPORT";
    RoomForCalls "room-for-calls" "a call that is handed on wants room for a reply";
    AskedPathLength "asked-path-length" "the place of a call's path is that of its length word";
    AskedNextPath "asked-next-path" "the place behind a call's path is without the padding";
    CallerDropped "caller-dropped" "a call that is handed on has no caller";
    AskTellsNeeded "ask-tells-needed" "where there is no room for a reply, it is told how much it needs";
    LongBeforeOutside "long-before-outside" "in writing a path over the bound comes before a piece that is not inside";
    LongAfterRoom "long-after-room" "in writing a path over the bound comes after too little room";
    CountUncompared "count-uncompared" "the count of an export list that is written may be any";
    CountOneOver "count-one-over" "the end of an export list is counted as an entry";
    ListWrittenAsIs "list-written-as-is" "an export list is written as it came";
    EndTold "end-told" "at the end of an export list something is told of an entry";
    NamesPlace "names-place" "the place of an entry's names is that of the first name";
    NamesUncounted "names-uncounted" "an entry has at most one name";
    SameByBytes "same-by-bytes" "two export lists are the same only if their bytes are";
    SamePaths "same-paths" "only the paths of two export lists are compared";
    SameLengths "same-lengths" "only the lengths of names are compared";
    SameLongTaken "same-long-taken" "export lists with a path over the bound are compared";

    RefusedKept "refused-kept" "after a refusal only the place is written, and the other figures stay as they were";
    RefusedPlain "refused-plain" "after a refusal the second figure is 1";
    RefusedLast "refused-last" "after a refusal the last figure is 1";
    PlaceAlways "place-always" "a refusal that has no place gives its number for one";
    NoRoomNext "no-room-next" "where there is no room for the rewriting, the next place is told";
    UnknownUntouched "unknown-untouched" "a kind that is not there leaves the figures as they were";
    ShortTouched "short-touched" "a list that is too short is touched";
    FigureBeyond "figure-beyond" "one figure more than there are is written";
    ByteBeyond "byte-beyond" "one byte more than is due is written";
    WrittenInPart "written-in-part" "what has too little room is written as far as it goes";
    WroteKept "wrote-kept" "a writer that refuses leaves its figure as it was";
    SilenceTells "silence-tells" "silence has a figure";
    SeenIfOne "seen-if-one" "only 1 says that a call was seen before";
    MoreLength "more-length" "a feed that wants more tells a length";
    YesKept "yes-kept" "the state's yes for last comes back as it was given";
    MisfitCleared "misfit-cleared" "a state that does not fit comes back fresh";
    PartWraps "part-wraps" "a piece's end is worked out in 64 bits";
    PartKept "part-kept" "a piece that is not inside is told as it was asked for";

    WantingNoPad "wanting-no-pad" "an opaque's pad is not counted as wanting";
    WantingOfMessage "wanting-of-message" "inside a credential bytes are wanting at the message's end, not the body's";
    WantingLengthWord "wanting-length-word" "where content is short, the rest of the length word is told in its place";
    WantingLengthCounted "wanting-counts-length" "the length word's bytes are counted as content that is there";
    WantingCutLength "wanting-cut-length" "a length word that is cut is taken as it is, and its content is told";
    WantingWraps "wanting-wraps" "what is wanting is worked out in 32 bits";
    WantingOneWord "wanting-one-word" "of a short list only the rest of one word is told";
    WantingInWords "wanting-in-words" "a record tells whole words";
    WantingNotChosen "wanting-not-chosen" "the choice of program does not tell what is wanting";
    WantingOutside "wanting-outside" "a body that is not inside wants nothing";

    HeaderPlain "header-plain" "every header is called plain";
    VerifierPlace "verifier-place" "a verifier's place is that of its length";
    DefaultPlace "default-place" "the pieces of a call of zeros are where the reading ended";
    AcceptStatKept "accept-stat-kept" "an undeclared accept_stat is told as it came";
    GidsInBytes "gids-in-bytes" "the count of groups is one of bytes";
    UnixPlaceInBody "unix-place-in-body" "the name's place is counted from the body's start";
    UnixOutside "unix-outside" "a body that is not inside is refused as a place past the end";
    TimesSwapped "times-swapped" "the seconds of mtime and ctime are swapped when read";
    FlagKept "flag-kept" "a flag is told as it came, not as 0 or 1";
    TimeUnset "time-unset" "a time that the server sets has seconds";
    PiecesSwapped "pieces-swapped" "a diropargs3's handle and name are swapped when read";

    WriteOrder "write-order" "a fattr3's uid and gid are swapped when written";
    WritePadDirty "write-pad-dirty" "padding is written that is not zero";
    WideCut "wide-cut" "a number that does not fit its field is cut";
    UndeclaredWritten "undeclared-written" "a number that is not declared is written";
    SetIfOne "set-if-one" "a value is set only if its flag is 1";
    UnsetLookedAt "unset-looked-at" "a value that is not set must fit its field";
    PieceBeforeSource "piece-before-source" "pieces are looked at before the source's length";
    RoomBeforePiece "room-before-piece" "room is looked at before the pieces";
    VerifierFromFirst "verifier-from-first" "a call's verifier is taken from the credential's source";
    GidsFromFirst "gids-from-first" "an auth_unix's groups are taken from the name's source";
    NameFromFirst "name-from-first" "a diropargs3's name is taken from the handle's source";
    SecondOutside "second-outside" "a piece outside of the second source is taken where it is inside of the first";
    LongWritten "long-written" "more than 1,048,576 bytes are written";
    SecondTooLong "second-too-long" "the second source may have any length";
    WordsWrap "words-wrap" "the length of a piece of words is worked out in 64 bits";
    GidsInsideInBytes "gids-inside-in-bytes" "whether the groups are inside is tested by their count in bytes";
    GidsWrittenInBytes "gids-written-in-bytes" "the count of groups is written in bytes";
    ReplyTakesCall "reply-takes-call" "a reply with the tag of a call is written as accepted";
    ReplyLowAlways "reply-low-always" "the lowest version is written for accept_stat 1 too";
    ReplyReasonSix "reply-reason-six" "a reply with auth_stat 6 is written";
    ReplyUnusedLookedAt "reply-unused-looked-at" "versions that are not written must fit their fields";

    JudgeNoPad "judge-no-pad" "the size that judging tells is without the padding";
    JudgeSizeRead "judge-size-read" "the size that judging tells is that of the bytes read";
    JudgePlain "judge-plain" "every message is judged plain";
    JudgeUntouched "judge-untouched" "judging a kind that is not there leaves the figures as they were";
    MarkUnseen "mark-unseen" "every piece is told clean";
    MarkCrossed "mark-crossed" "the marks of two pieces are told the other way round";
    MarkPlain "mark-plain" "a piece is told dirty wherever the message is not plain";
    MarkLast "mark-last" "the mark of a list is that of its last name or path";
    MarkStray "mark-stray" "the empty pieces of a default are told dirty";
    WordsUnmarked "words-unmarked" "a list of words is told to be no piece";
    MarksUntouched "marks-untouched" "marking a kind that is not there leaves the figures as they were";
    NeededLess "needed-less" "a rewriting that has no room needs one byte less";
    NeededFirst "needed-first" "what a rewriting needs is the first figure";
    WriterNeedsLess "writer-needs-less" "a writer that has no room needs one byte less";
    NeededFromZero "needed-from-zero" "what a writer needs is counted from the start of the buffer";
    FragmentNeedsMessage "fragment-needs-message" "what a fragment needs is told without its header";
    ChoiceNeeds "choice-needs" "the choice of program tells what a reply needs";
    FedAsChosen "fed-as-chosen" "a feed answers by the numbers of the choice of program";
}
