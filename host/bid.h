/* When two BIDs are one: the library's rule, as SQL has it. A to Z and a to z are taken as one, and every other byte as it is, those from
 * 0x80 too. This is the only place in the host that says it; with another rule the base gets a new version, whose step makes indexes on the
 * new key. */
#ifndef BID_H
#define BID_H

/* BIDs are one exactly if their keys are. NOCASE folds just these letters, but in texts alone, and a BID is a blob. */
#define BID_TEXT(bid) "CAST(" bid " AS TEXT)"
#define BID_KEY(bid) BID_TEXT(bid) " COLLATE NOCASE"
#define SAME_BID(a, b) BID_KEY(a) " = " BID_TEXT(b)

#endif
