/*
 * plates.h: the C interface of Plates.
 *
 * Plates chooses which species plates go into a field guide of a given page count, so that they show as much of the family
 * tree as the space allows. The caller hands over the tree with a length for each branch, a price for each plate and for each
 * group's heading, and a page count, and may lock species that must be in the guide. The library gives the best set of plates
 * for that count, and for every smaller count the best that can be reached. That is not a heuristic: among all the sets that
 * fit, no other is better. While a page count is still being turned, a quick choice can be had: it may be poorer than the best,
 * and tells by how much at most. Where a length changes between editions, the library tells how far that moves the best. While
 * prices are known only as low and high, it tells which set fits whatever is agreed, and between which numbers the best then is.
 * In the literature the problem is called phylogenetic diversity under a budget (Pardi and Goldman, Systematic Biology 56(3),
 * 2007).
 *
 *     plates_read         the outline of a tree in Newick form
 *     plates_write        an outline's tree in Newick form again
 *     plates_check        whether an outline is sound, and if not what is wrong and where
 *     plates_find         the record of the taxon that has a given plate
 *     plates_choose       the best taxa for a page count
 *     plates_quick        a quick choice for a page count that is still being turned, with a ceiling for the best
 *     plates_revise       the best taxa once one length is revised, and how far the best diversity moves by that
 *     plates_range        the taxa that fit whatever prices are agreed between low and high, and where the best then is
 *     plates_sheet        the taxa of a set, with the quarters and the diversity that each adds
 *     plates_view_house   an outline as a house reader gets it, as it is
 *     plates_view_buyer   an outline as a buyer's reader gets it, without prices and locks
 *     plates_house_form   the house form of an outline, one for all outlines of the same tree
 *     plates_compare      whether two outlines are the same tree, and if not which of the two trees comes first
 *
 * Link with libplates.a (-lplates). It needs nothing but memcpy and memset, which every C library has.
 *
 * Words
 *
 *     taxon      a species with a plate
 *     group      a node of the tree with members below it: groups or taxa
 *     heading    the block that a group has in the guide if a taxon below it is chosen; one of price 0 takes no space
 *     length     the length of the branch above a taxon or a group, a whole number
 *     quarter    a quarter page, the unit of prices and of page counts
 *     locked     said of a taxon that must be in the guide, such as a species on its jacket: every choice has it
 *     outline    the tree, as an array of records
 *     marks      a set of taxa, as a number for each record: 1 for a taxon of the set, 0 for every other record
 *     pick       one step of a quick choice: a taxon is added to the set
 *     ceiling    a number that comes with a quick choice, and that the best diversity is never above
 *     revised    said of an outline in which the length of one record has been replaced by another
 *     sure set   the best set at high prices: it fits the page count for all prices between low and high
 *     floor      the diversity of the sure set, and a number that the best diversity is never below for prices between
 *     roof       the best diversity at low prices, and a number that the best diversity is never above for prices between
 *     sheet      the taxa of a set in record order, each with its plate, the quarters and the diversity that it adds
 *     view       an outline as a reader gets it: as it is for a house reader, who may see prices and locks, and without these
 *                for a buyer's reader, who may not
 *     house form the one outline that is written for a tree, however its members are ordered and its records numbered
 *
 *
 * THE OUTLINE
 *
 * An outline is N records of 16 bytes, one after the other, numbered from 1. Record 1 is the root. All fields are unsigned,
 * least significant byte first on every machine.
 *
 *     bytes     field    taxon                    group
 *     0 to 1    next     the next member under the same group, 0 for the last one; record 1: 0
 *     2 to 3    first    0                        the group's first member
 *     4 to 7    length   0 to 1,000,000           0 to 1,000,000
 *     8 to 11   price    0 to 65,535 quarters     0 to 65,535 quarters, of its heading
 *     12 to 15  plate    1 to 2,147,483,647;      0
 *                        bit 31 is its lock
 *
 * So a record whose first is 0 is a taxon, and every other record is a group.
 *
 * Bit 31 of a taxon's plate field is 1 if the taxon is locked, and the lower 31 bits are its plate: 2,147,483,648 + 11 is plate
 * 11, locked. Before there were locks, a field above 2,147,483,647 was a plate of that number; outlines without such fields give
 * what they gave.
 *
 * Limits: 1 to 127 records, at most 64 taxa, no two taxa with the same plate, locked or not. A page count is 0 to 4,096
 * quarters.
 *
 * Links: a link (next or first) that is not 0 names a later record, so it is greater than the number of the record it stands
 * in, and at most N. Each record but record 1 is named by exactly one link. A group may have any number of members, one
 * included. Numbering the records depth first, each group before its members, always gives such links.
 *
 * The order of the records matters in one way only: between sets that are equal otherwise it decides, and in a quick choice
 * between taxa that are (see below).
 *
 * Example, "tree A". The number on a branch is its length, the one in brackets is the record's:
 *
 *     [1]--+--3--[2]--+--4--[3]  plate 11, 3 quarters
 *          |          |
 *          |          +--2--[4]  plate 12, 1 quarter
 *          |
 *          +--5--[5]  plate 13, 2 quarters
 *
 *     record  next  first  length  price  plate
 *        1      0      2       0      0      0      the root, with members 2 and 5
 *        2      5      3       3      0      0      a group, with members 3 and 4; the next beside it is 5
 *        3      4      0       4      3     11
 *        4      0      0       2      1     12      the last member of group 2
 *        5      0      0       5      2     13      the last member of group 1
 *
 * Record 3 in bytes (hexadecimal; it begins at byte 32 of the 80 that tree A has):
 *
 *     04 00   00 00   04 00 00 00   03 00 00 00   0b 00 00 00
 *     next    first   length        price         plate
 *
 * plates_put_record writes such a record.
 *
 *
 * TREES AS TEXT
 *
 * plates_read makes the outline from a text in Newick form, so that nobody has to number records. Tree A is
 *
 *     ((11:4,12:2):3,13:5);
 *
 * A part is a taxon or a group. A taxon is written as its plate, a group as the list of its members in round brackets, one part
 * or more, with commas between. After a part a colon and the length of its branch may stand; without them the length is 0. A
 * semicolon ends the tree. Plates and lengths are numbers of 1 to 9 digits side by side. Blanks, tabs and line ends (bytes 32,
 * 9, 10 and 13) may stand anywhere but inside a number, also behind the semicolon. Nothing else is accepted: no names, no
 * labels of groups, no comments, no points, no signs, and no byte 0, so the length of a C string is its strlen. A text has at
 * most 16,384 bytes.
 *
 * The prices come beside the text as pairs of numbers, plate then price, in any order: exactly one pair for each taxon, and
 * none for other plates. For tree A:
 *
 *     11 3   12 1   13 2
 *
 * The form has no prices for headings and no locks: in the outline that is read the price of each group is 0, and no taxon is
 * locked. The caller may write another price there, and may lock the taxon of record r by
 *
 *     outline[PLATES_OUTLINE_LEN(r) - 1] |= 0x80;
 *
 * Records are numbered as their parts begin in the text: the root first, then its first member with all below it, and so on.
 *
 * plates_write writes an outline as text and pairs, to return a tree to its author. There is one spelling: no blanks, tabs or
 * line ends, no leading zeros, and a colon and the length after every part, the root too. The members of a group stand in the
 * order of their links, and the pairs in the order of the text. Tree A, with the pairs above, is written
 *
 *     ((11:4,12:2):3,13:5):0;
 *
 * plates_read accepts what plates_write has written. It gives back the same bytes if the records are numbered as in the text,
 * and so they are in every outline that plates_read made, and in every house form (see below). Otherwise it numbers them anew,
 * and of sets that are equal in diversity and cost another may then be the best. What is read from a written text is written as
 * the same text.
 *
 * A heading with a price, a lock and a plate of 10 digits have no form in the text: an outline that has one is refused (13).
 * The caller may clear prices of headings and locks in a copy first. The taxon of record r is locked no more by
 *
 *     copy[PLATES_OUTLINE_LEN(r) - 1] &= 0x7f;
 *
 *
 * WHAT IS BEST
 *
 * The diversity of a set of taxa is a sum of branch lengths, each branch counted once:
 *
 *     PLATES_ROOTED (way 0)     the lengths of all records that are, or have below them, a chosen taxon. This is the part of
 *                               the tree that joins the chosen taxa and the root; the root's own length counts.
 *     PLATES_UNROOTED (way 1)   the lengths of all records with a chosen taxon at or below them and another one elsewhere.
 *                               This is the part of the tree that joins the chosen taxa to each other; for one taxon it is 0.
 *
 * The empty set has diversity 0 either way.
 *
 * The cost of a set is the sum of the prices of all records that are, or have below them, a chosen taxon: the price of each
 * chosen plate, and for each group with a chosen taxon below it the price of its heading, once. It is the same either way; the
 * root's own heading counts. A set fits a page count if it has every locked taxon and its cost is at most the count. Of two sets
 * that fit, the better one is
 *
 *     1. the one with more diversity;
 *     2. at equal diversity the one that costs less;
 *     3. at equal cost too, the one that has the lowest-numbered taxon on which they differ.
 *
 * So there is exactly one best set for each outline, way and count that a set fits, and plates_choose gives it in every call.
 * It has all locked taxa, whatever they cost. A taxon of price 0 is always in it where all groups above it have price 0 too.
 * Where no taxon is locked the best set may be empty: that is a selection too, and not a refusal.
 *
 * No set fits a count below the cost of the locked taxa themselves, with the headings above them. Choosing for such a count,
 * quickly or not, is refused (12); in the curve of a larger count it has diversity 0 and cost 4,294,967,295.
 *
 * In tree A with 5 quarters, rooted, the best set is plates 11 and 13: diversity 3 + 4 + 5 = 12, cost 3 + 2 = 5. For the
 * counts from 0 to 5 the best diversities are 0, 5, 5, 10, 10, 12, and their costs 0, 1, 1, 3, 3, 5. At count 2 that is plate
 * 12 (3 + 2 = 5 for 1 quarter) and not plate 13 (5 for 2 quarters).
 *
 * If group 2 had a heading of 2 quarters, plate 12 alone would cost 1 + 2 = 3, so that at count 2 plate 13 would be best. All
 * three plates would cost 3 + 1 + 2 + 2 = 8, with the heading paid once.
 *
 * If plate 13 were locked, in tree A without that heading, counts 0 and 1 would be refused. At count 2 plate 13 would be best,
 * with diversity 5, and unrooted with diversity 0 though it costs 2 quarters. For the counts from 0 to 5 the best diversities,
 * rooted, would be 0, 0, 5, 10, 10, 12, and their costs 4,294,967,295, 4,294,967,295, 2, 3, 3, 5.
 *
 *
 * A CHOICE WHILE THE COUNT IS BEING TURNED
 *
 * plates_quick makes a quick choice, for the time in which the knob of the panel is moving. It needs no curve and no work. The
 * records and the picks bound its time, whatever the count; the time of plates_choose grows with the count. A quick choice need
 * not be the best one: when the knob rests, plates_choose is to be called for that.
 *
 * A quick choice is rooted. It starts from the locked taxa, and makes at most as many picks as the caller says, 0 to 64. Each
 * pick adds a taxon to the set. A taxon that is not in the set can be picked if it adds more than 0 to the diversity, and the
 * set still fits the page count with it and the headings that it opens. Of these taxa the pick takes
 *
 *     1. the one that adds the most diversity;
 *     2. at equal diversity the one that adds the fewest quarters, those of the headings that it opens included;
 *     3. at equal quarters too, the one with the lowest record.
 *
 * Picking ends when no taxon can be picked, or with the last pick that the caller allows. A taxon that adds no diversity is
 * never picked, not even a free one. No outline has more than 64 taxa, so 64 picks are always enough. With its records in
 * another order the same tree may have a quick choice of another diversity; its best diversity stays the same.
 *
 * With the set goes a ceiling: the diversity of the set, and on top of it, for each taxon that is not in the set and whose own
 * price is at most the page count, what this taxon would add to the set by itself. Headings are not looked at here. In tree A
 * plates 11, 12 and 13 by themselves have diversities 7, 5 and 5:
 *
 *     count  picks     plates      diversity  cost  taxa  ceiling
 *       5    0         none            0        0     0      17     plate 11 would add 7, plates 12 and 13 would add 5 each
 *       5    1         11              7        3     1      14     plate 12 would add 2, plate 13 would add 5
 *       5    2 to 64   11 and 13      12        5     2      14     plate 12 would add 2
 *       2    1 to 64   12              5        1     1      10     plate 13 would add 5, and plate 11 costs more than 2
 *       3    1 to 64   11              7        3     1      14     plate 12 would add 2, plate 13 would add 5
 *       6    3 to 64   all            14        6     3      14
 *
 * What is promised, where the best diversity is that of plates_choose for the same outline and count, rooted:
 *
 * - The set fits the page count: it has every locked taxon, and its cost is at most the count.
 * - The best diversity is at least the diversity of the set, and at most the ceiling.
 * - More picks never lower the diversity. Beside the locked taxa the set has at most as many taxa as the caller allows picks,
 *   and fewer only where no taxon can be picked any more.
 *
 * So the ceiling less the diversity is the most that the set can be short of the best. After two picks for count 5 the best
 * diversity is from 12 to 14, and plates_choose tells that it is 12. For count 3 it is from 7 to 14, and is 10, by plates 12 and
 * 13, a set that no number of picks gives. Where the two numbers are equal, as for count 6, no set that fits shows more than the
 * quick choice. Even then plates_choose may give another set of that diversity: it also chooses free taxa that add nothing.
 *
 *
 * WHEN ONE LENGTH IS REVISED
 *
 * Branch lengths change between editions. plates_revise tells what one such change does to a guide: it chooses on the revised
 * outline, in which the length of one record is replaced, and tells how far the best diversity moves by that. The record may be
 * a taxon, a group or the root, and the new length is 0 to 1,000,000; if it is the old one, nothing moves. The outline that is
 * handed over is not written: it keeps the old length, so that each of several changes can be asked about by itself. What several
 * changes move by themselves need not add up to what they move together: for that, choose on the outline that has them all.
 *
 * The set, its numbers and the curve are those that plates_choose gives of the revised outline, for the same count and way.
 * Beside them moved has two numbers, each with a sign:
 *
 *     moved[0]   the best diversity of the revised outline less that of the given one
 *     moved[1]   the new length less the old one
 *
 * In tree A with 5 quarters, rooted, the best set is plates 11 and 13, with diversity 12. Plates 12 and 13 have 10, and plates 11
 * and 12 have 9. With one length revised at a time:
 *
 *     record  length   plates     diversity   moved
 *        2    3 to 1   11 and 13     10       -2  -2    the branch is in the best set's tree
 *        3    4 to 9   11 and 13     17        5   5    so is that of plate 11
 *        3    4 to 1   12 and 13     10       -2  -3    plates 11 and 13 would have 9
 *        4    2 to 3   11 and 13     12        0   1    plates 12 and 13 would have 11
 *        4    2 to 6   12 and 13     14        2   4    plates 11 and 13 have 12 as before
 *        5    5 to 0   11 and 12      9       -3  -5    plates 11 and 13 would have 7
 *        1    0 to 6   11 and 13     18        6   6    unrooted it would be 12, moved 0 and 6: the root does not count there
 *
 * What is promised, either way of counting:
 *
 * - The best diversity moves by no more than the length: moved[0] is never larger in size than moved[1].
 * - It never moves the other way: moved[0] is never above 0 where the length falls, nor below 0 where it rises. It may be 0
 *   though moved[1] is not.
 * - Exactly as much, where neither call is refused: let S be the set that plates_choose gives of the given outline, for the same
 *   count and way. Where S spans the revised branch and the length rises, the best rises by exactly the difference: moved[0] equals
 *   moved[1]. Where S does not span it and the length falls, moved[0] is 0. In both cases S stays chosen: the first N marks are the
 *   same, and so are cost, number of taxa and spare; the diversity is the old one and moved[0]. If the length stays as it is, all of
 *   this holds too. It is said of the page count itself: in the curve, for a smaller count, the best set may be another one.
 * - A revised outline is one that plates_check accepts, as the given one is. The answer, marks, curve and work are what a call of
 *   plates_choose on it with the same buffers leaves.
 *
 * A set spans a branch if its diversity counts the branch's length: rooted if one of its taxa is at or below the record, unrooted if
 * one is there and another one is elsewhere. So no plate changes where a branch of the best set's tree turns out longer, nor where
 * one that is not in it turns out shorter. In the other two cases nothing of the kind is promised, as the table shows: plate 11 is
 * in the best set and leaves it at length 1, plate 12 is not and comes in at length 6.
 *
 * It makes no difference in which buffers S was chosen. S may also come from a call of plates_revise for the same count and way, if
 * the outline that is handed over now is the revised one of that call. Where S stays by this promise, and the marks are handed over
 * as the call that chose S left them, no byte of them changes.
 *
 * The old best is what plates_choose tells of the given outline; its diversity is also that of the answer less moved[0]. A set of
 * plates costs the same before and after, so the given outline has a choice for a page count exactly if the revised one has.
 *
 *
 * PRICES NOT YET AGREED
 *
 * Before the artwork is in, what a plate will cost is known as low and high only. plates_range takes two outlines, one with the low
 * prices and one with the high ones, and tells what can be promised now: a set of taxa that fits the page count whatever is agreed,
 * so that their authors can be told that they are in, and two numbers that the best diversity will lie between. The outlines may
 * differ in prices only, of taxa and of headings, and no low price is above the high price of the same record. A price that is
 * agreed already is the same in both. plates_read makes such outlines of one text with two lists of pairs. Where members or records
 * stand in another order, the house forms can be handed over (see below): their order does not depend on prices.
 *
 * The set, its numbers and the curve are those that plates_choose gives of the high outline, for the same count and way. The set
 * is the sure set, and its diversity the floor. Beside them *roof is the best diversity of the low outline.
 *
 * In tree A let plate 11 cost 3 to 4 quarters, and the others 1 and 2 as before. Rooted:
 *
 *     count  sure set    floor  cost  spare  roof
 *       0    none           0     0     0      0
 *       2    12             5     1     1      5
 *       3    12 and 13     10     3     0     10
 *       5    12 and 13     10     3     2     12    at 3 quarters for plate 11, plates 11 and 13 fit
 *       6    11 and 13     12     6     0     14    at 3 quarters for plate 11, all three fit
 *
 * What is promised, either way of counting, of every outline between: one that differs from the low one in prices only, with no
 * price below that of the low outline or above that of the high one:
 *
 * - The sure set fits the page count. It costs at most what the answer says, so at least the spare is left over.
 * - The best diversity, which plates_choose gives of that outline for the same count and way, is at least the floor and at most the
 *   roof. plates_check accepts that outline, and its locked taxa are not too dear (12).
 *
 * The low and the high outline are between, too. Where floor and roof are equal, the sure set has the best diversity whatever is
 * agreed. Where the locked taxa fit the count at low prices and not at high ones, no set is sure, and the call is refused (12).
 *
 * What is not promised: once prices are agreed another set may be better than the sure set, and need not have its plates. In the
 * table plate 12 is sure at count 5, and plates 11 and 13 are the best if plate 11 comes to cost 3. Nor need a plate that is sure at
 * one count be so at a larger one: plate 12 is not at count 6. The curve is that of the high prices. So it tells the floor of a
 * smaller count, and neither its roof nor its sure set, for which plates_range is called with that count.
 *
 *
 * THE SHEET
 *
 * plates_sheet lists the taxa of a marked set in record order, so that the foot of a page can be checked against the panel. Each
 * has a row of three numbers: its plate, the quarters that it adds to those before it, and the diversity that it adds to them.
 * So the k-th row has the cost of the first k taxa less that of the first k - 1, and the same of their diversity: a heading is
 * charged to the first taxon of the set that is below it, and unrooted the first row has diversity 0.
 *
 * For plates 11 and 13 of tree A the rows, and below them the sums of the quarters and of the diversity, are
 *
 *     rooted       unrooted     rooted, if group 2 had a heading of 2 quarters
 *
 *     11  3   7    11  3   0    11  5   7
 *     13  2   5    13  2  12    13  2   5
 *
 *         5  12        5  12        7  12
 *
 * The sums are the cost and the diversity of the set. The marks that plates_choose has written can be handed over as they are:
 * with the same way the sums are the cost and the diversity of its answer. With the rooted way the same holds of plates_quick.
 * But any set of taxa may be marked by hand, the empty one too. It need not fit a page count, nor have the locked taxa.
 *
 *
 * WHAT A BUYER'S EDITOR MAY SEE
 *
 * Prices and locks are the publisher's business. plates_view_house gives a house reader the records as they are;
 * plates_view_buyer gives a buyer's reader the same records with every price 0, those of headings too, and without locks.
 * Record 5 of tree A, if it were locked, in bytes (hexadecimal):
 *
 *     house   00 00   00 00   05 00 00 00   02 00 00 00   0d 00 00 80
 *     buyer   00 00   00 00   05 00 00 00   00 00 00 00   0d 00 00 00
 *             next    first   length        price         plate
 *
 * If two outlines that plates_check accepts differ in prices and locks alone, headings' prices included, a buyer's reader gets
 * the same bytes for both. That holds for the first PLATES_OUTLINE_LEN(N) bytes of any two views that are long enough, and for
 * all bytes of two views that were alike before the calls. Bytes beyond the records stay as they were, so hand on the first
 * PLATES_OUTLINE_LEN(N) only.
 *
 * A buyer's view is itself an outline that plates_check accepts, with the same links, lengths and plates. Every function that
 * reads an outline takes it: plates_find finds each plate at the same record, plates_choose chooses every taxon, at count 0 too,
 * and plates_write writes it, with prices of 0, if no plate has 10 digits.
 *
 * A refusal may still depend on a price, and so may its place: a price above 65,535 is out of range (5), and the place may be its
 * record. Nothing is written to the view then.
 *
 *
 * ONE TREE, ONE FILE
 *
 * Authors send the same tree with the members of its groups in another order, or with its records numbered otherwise. Two
 * outlines that plates_check accepts are the same tree if the records of the one can be numbered as those of the other such that
 * each keeps its parent (the group that it is a member of), its length, its price and its plate field. So the order of members
 * makes no difference. Another length, price (a heading's too), plate or lock makes another tree, and so does a group more or
 * less, even one of length 0 with a single member.
 *
 * plates_house_form writes the house form of a tree. Each group has its members in the order of the smallest plate at or below
 * them, the smallest first, and the records are numbered as in a text: the root first, then its first member with all below it,
 * and so on. On the left an author has shuffled the members of tree A; on the right is the house form, which is tree A as it
 * stands above:
 *
 *     (13:5,(12:2,11:4):3);                                 ((11:4,12:2):3,13:5);
 *
 *     record  next  first  length  price  plate             record  next  first  length  price  plate
 *        1      0      2       0      0      0                 1      0      2       0      0      0
 *        2      3      0       5      2     13                 2      5      3       3      0      0
 *        3      0      4       3      0      0                 3      4      0       4      3     11
 *        4      5      0       2      1     12                 4      0      0       2      1     12
 *        5      0      0       4      3     11                 5      0      0       5      2     13
 *
 * In the house form the group comes before plate 13, since the smallest plate below it is 11. The locks are no part of the
 * plates, so a lock moves no member.
 *
 * What is promised, of outlines that plates_check accepts:
 *
 * - Two outlines have equal house forms, byte for byte, exactly if they are the same tree.
 * - The house form is an outline that plates_check accepts too. It has as many records and is the same tree: every length, price
 *   and lock stays where it was in the tree. It is its own house form.
 * - There is one text for one tree: what plates_write writes of a house form, text and pairs, plates_read reads as that house
 *   form again, byte for byte. So of two house forms that plates_write does not refuse (13), text and pairs are the same exactly
 *   if the trees are.
 *
 * plates_compare tells of two outlines whether they are the same tree, and if not which tree comes before the other. It goes by
 * the bytes of the house forms, as memcmp does: the first byte in which they differ decides, and a form that is the beginning of
 * the other comes before it. That is a total order of trees, as a sort asks for: the order is 0 exactly for the same tree; it
 * turns round if the two outlines are exchanged; and if one tree comes before a second, and the second before a third, the first
 * comes before the third. So a list of trees can be sorted and searched with it, however the members and the records of each
 * stand. Beyond that it means nothing which of two trees comes before.
 *
 * The records of a house form may have other numbers than those of the outline that it was made of. So marks of the one do not
 * fit the other, and since ties go by the numbers of records, of sets that are equal in diversity and cost another may be the
 * best. The curve is the same for both.
 *
 *
 * WHAT THE CALLER HAS TO KEEP
 *
 * marks, curve and work of plates_choose, plates_revise and plates_range are lent space, and so are the marks of plates_quick, the
 * outline of plates_read, the text and pairs of plates_write, the sheet of plates_sheet, the view of plates_view_house and
 * plates_view_buyer, the form of plates_house_form and both forms of plates_compare: buffers that a result is written to, and
 * that a refusal leaves as they were. answer, place, ceiling, moved, roof and order are no lent space. They carry the numbers that
 * a call gives, so they are written in any case, on a refusal too.
 *
 * - No pointer is null, not even where the length is 0, and each points to at least as many elements as its length says.
 *   Lengths are numbers of elements: text_len, outline_len, low_len, high_len, a_len, b_len, marks_len, view_len, form_len,
 *   form_a_len and form_b_len in bytes, pairs_len, curve_len and sheet_len in uint32_t, work_len in uint64_t. The answer of
 *   plates_choose, plates_revise and plates_range has 6 elements, that of plates_read has 3, that of plates_write has 4, that of
 *   plates_quick and plates_sheet has 5, that of plates_view_house, plates_view_buyer, plates_house_form and plates_compare has 2;
 *   moved has 2; place, ceiling, roof and order have 1.
 * - Each pointer is aligned as its element type asks. Text, outlines, marks, views and forms may begin at any byte.
 * - What a call writes (lent space, answer, place, ceiling, moved, roof, order) overlaps nothing else that it is handed: neither a
 *   view nor a house form is made in the place of its outline, and the two forms of plates_compare overlap neither outline nor each
 *   other. What a call only reads may overlap: the outline and the marks of plates_sheet may be the same memory, and so may the
 *   two outlines of plates_compare and those of plates_range.
 * - While a call runs, nobody else writes what it is handed, and nobody else reads what it writes.
 *
 * What stands before a call where it writes makes no difference; that need not be initialised.
 *
 *
 * WHAT THE LIBRARY KEEPS
 *
 * - Any bytes may be handed over as an outline, a text or the marks of plates_sheet, and any numbers as pairs, record, new
 *   length, count, picks, way and lengths: what is not sound is refused, and a refusal of the table below is the only way for a
 *   call to fail.
 * - Nothing is allocated, no file is touched, and there is no global state. Calls on different buffers may run at the same
 *   time, and may share what they only read.
 * - Nothing is written but what is named at each function, and no byte 0 behind a text. Only plates_read writes to the outline
 *   that it is handed, and only plates_choose, plates_quick, plates_revise and plates_range to the marks.
 * - The time of a call is bounded. That of plates_choose grows linearly with the count. plates_revise does no more than two calls of
 *   plates_choose do, beside copying the outline, and plates_range no more than one on each of its outlines, beside comparing these.
 *   Checking, finding, the quick choice, the sheet, the views, the house form and comparing take at most a few steps for each pair
 *   of records of an outline, the quick choice also for each pick with each record, writing also for each byte of the text, and
 *   reading also for each byte of the text and for each record with each pair of numbers.
 * - Little stack is used, since the table stands in work: choosing, revising, the quick choice, the choice for a range of prices,
 *   writing, the sheet, the house form and comparing nest no deeper than there are records, which takes less than 64 KB on x86-64
 *   for the deepest outlines. Reading a text takes less than 70 KB, however deep it is: its calls nest for 127 records, and no
 *   deeper.
 */
#ifndef PLATES_H
#define PLATES_H

#include <stddef.h>
#include <stdint.h>

#ifdef __cplusplus
#define PLATES_CAST_(type, value) static_cast<type>(value)
extern "C" {
#else
#define PLATES_CAST_(type, value) ((type)(value))
#endif

/* The version of this header and of the library that it came with. */
#define PLATES_VERSION "0.1.0"

/* Limits. */
#define PLATES_RECORD_BYTES 16
#define PLATES_MOST_RECORDS 127
#define PLATES_MOST_TAXA 64
#define PLATES_MOST_COUNT 4096
#define PLATES_MOST_PICKS 64
#define PLATES_MOST_LENGTH 1000000
#define PLATES_MOST_PRICE 65535
#define PLATES_MOST_PLATE 2147483647
#define PLATES_MOST_TEXT_LEN 16384

/* Bit 31 of a taxon's plate field, which locks it: PLATES_LOCK | plate is the field of a locked taxon. */
#define PLATES_LOCK UINT32_C(2147483648)

/* What the curve has for the cost of a count that no set fits. No set costs as much. */
#define PLATES_NO_SET UINT32_C(4294967295)

/*
 * How many elements an outline has, and how many each buffer has to have. They are constant expressions where their arguments
 * are, so that they can size an array. The arguments have to be within the limits: a count above PLATES_MOST_COUNT is refused
 * whatever the buffers are.
 *
 *     outline   bytes       PLATES_OUTLINE_LEN(records)
 *     pairs     uint32_t    PLATES_PAIRS_LEN(taxa)
 *     text      bytes       PLATES_WRITTEN_LEN(records, taxa)
 *     marks     bytes       PLATES_MARKS_LEN(records)
 *     curve     uint32_t    PLATES_CURVE_LEN(count)
 *     work      uint64_t    PLATES_WORK_LEN(records, count)
 *     sheet     uint32_t    PLATES_SHEET_LEN(taxa)
 *     view      bytes       PLATES_OUTLINE_LEN(records)
 *     form      bytes       PLATES_OUTLINE_LEN(records)
 *
 * text is that of plates_write, and its length one that always suffices: 18 bytes for each taxon and 10 for each group, as many
 * as there are where every plate has 9 digits and every length 7. The other lengths are exact; the taxa of the sheet are those
 * of the marked set.
 *
 * answer is no buffer, and always has PLATES_ANSWER_LEN uint32_t, for plates_read PLATES_READ_ANSWER_LEN, for plates_write
 * PLATES_WRITE_ANSWER_LEN, for plates_quick PLATES_QUICK_ANSWER_LEN, for plates_sheet PLATES_SHEET_ANSWER_LEN, for
 * plates_view_house and plates_view_buyer PLATES_VIEW_ANSWER_LEN, and for plates_house_form and plates_compare
 * PLATES_FORM_ANSWER_LEN. Nor is moved, which always has PLATES_MOVED_LEN int64_t: see below.
 */
#define PLATES_OUTLINE_LEN(records) (PLATES_CAST_(size_t, PLATES_RECORD_BYTES) * PLATES_CAST_(size_t, records))
#define PLATES_PAIRS_LEN(taxa) (PLATES_CAST_(size_t, 2) * PLATES_CAST_(size_t, taxa))
#define PLATES_WRITTEN_LEN(records, taxa) \
    (PLATES_CAST_(size_t, 10) * PLATES_CAST_(size_t, records) + PLATES_CAST_(size_t, 8) * PLATES_CAST_(size_t, taxa))
#define PLATES_MARKS_LEN(records) PLATES_CAST_(size_t, records)
#define PLATES_CURVE_LEN(count) (PLATES_CAST_(size_t, 2) * (PLATES_CAST_(size_t, count) + 1))
#define PLATES_WORK_LEN(records, count) \
    (PLATES_CAST_(size_t, 4) * (PLATES_CAST_(size_t, records) + 2) * (PLATES_CAST_(size_t, count) + 1))
#define PLATES_SHEET_LEN(taxa) (PLATES_CAST_(size_t, 3) * PLATES_CAST_(size_t, taxa))

/* The same for the largest outline and the largest count: enough for every call. No text that is written has more
 * than 1,782 bytes. The most work is 16,912,416 bytes, more than a usual stack has. */
#define PLATES_MOST_OUTLINE_LEN PLATES_OUTLINE_LEN(PLATES_MOST_RECORDS)
#define PLATES_MOST_PAIRS_LEN PLATES_PAIRS_LEN(PLATES_MOST_TAXA)
#define PLATES_MOST_WRITTEN_LEN PLATES_WRITTEN_LEN(PLATES_MOST_RECORDS, PLATES_MOST_TAXA)
#define PLATES_MOST_MARKS_LEN PLATES_MARKS_LEN(PLATES_MOST_RECORDS)
#define PLATES_MOST_CURVE_LEN PLATES_CURVE_LEN(PLATES_MOST_COUNT)
#define PLATES_MOST_WORK_LEN PLATES_WORK_LEN(PLATES_MOST_RECORDS, PLATES_MOST_COUNT)
#define PLATES_MOST_SHEET_LEN PLATES_SHEET_LEN(PLATES_MOST_TAXA)

/* The ways, as plates_choose, plates_revise, plates_range and plates_sheet take them. */
enum plates_way {
    PLATES_ROOTED = 0,
    PLATES_UNROOTED = 1
};

/* The orders of two trees, as plates_compare writes them. */
enum plates_order {
    /* The first tree comes before the second. */
    PLATES_BEFORE = -1,
    /* They are the same tree. */
    PLATES_SAME = 0,
    /* The first tree comes after the second. */
    PLATES_AFTER = 1
};

/*
 * What every function of the library but plates_find gives: PLATES_OK or a refusal. Refusals are judged in an order, that of
 * their numbers unless the function says another, and the first that holds is given. A refusal has a place: the number of the
 * record at fault, from 1, or 0 where no one record is.
 *
 * Later versions add refusals, with numbers from 18 on. So treat any number other than PLATES_OK as a refusal, also one that is
 * not named here: give a switch over these a default.
 */
enum plates_refusal {
    /* The call is accepted; place 0. */
    PLATES_OK = 0,
    /* The way is neither 0 nor 1; place 0. */
    PLATES_UNKNOWN_WAY = 1,
    /* The outline's length is 0 or no multiple of 16; place 0. */
    PLATES_PARTIAL_RECORD = 2,
    /* The outline, or the tree of the text, has more than 127 records; place 0. */
    PLATES_TOO_MANY_RECORDS = 3,
    /* The page count is above 4,096; place 0. */
    PLATES_COUNT_TOO_LARGE = 4,
    /* Length, price or plate is outside its range: a length above 1,000,000, a price above 65,535, a taxon's plate that is 0,
     * locked or not, or a group's plate field that is not 0, bit 31 included; place is the lowest such record. */
    PLATES_FIELD_OUT_OF_RANGE = 5,
    /* A link of the record is not 0 and not the number of a later record; or it is record 1 and its next is not 0; or it is
     * another record and no link names it, or more than one does. place is the lowest such record. */
    PLATES_BAD_LINK = 6,
    /* The outline has more than 64 taxa; place 0. */
    PLATES_TOO_MANY_TAXA = 7,
    /* An earlier taxon has the same plate, whatever their locks; place is the lowest such record, so the later of the two. */
    PLATES_DUPLICATE_PLATE = 8,
    /* marks, curve or work of plates_choose, plates_revise or plates_range is shorter than PLATES_MARKS_LEN, PLATES_CURVE_LEN or
     * PLATES_WORK_LEN says, or the marks of plates_quick than PLATES_MARKS_LEN says, or the outline of plates_read, a view or a
     * house form than PLATES_OUTLINE_LEN says, or the text or the pairs of plates_write than what is to be written, or the sheet
     * than PLATES_SHEET_LEN says; place 0. */
    PLATES_BUFFER_TOO_SHORT = 9,
    /* The text is no tree in the form above, or has more than 16,384 bytes; place 0. */
    PLATES_BAD_TEXT = 10,
    /* A taxon of the text has no pair or more than one, a pair's plate is no taxon's, or the count of pair numbers is odd;
     * place 0. */
    PLATES_BAD_PAIRS = 11,
    /* No set that has every locked taxon fits the page count: the locked taxa themselves, with the headings above them, cost
     * more; place 0. */
    PLATES_LOCKED_TOO_DEAR = 12,
    /* The record has what a text has no form for: it is a group whose price is above 0, or a taxon that is locked or whose plate
     * is above 999,999,999; place is the lowest such record. It is judged after 8 and before 9. */
    PLATES_UNWRITABLE = 13,
    /* There are fewer marks than records, whatever they are; place 0. Or the record's mark is neither 0 nor 1, or it is 1 and
     * the record is a group; place is the lowest such record. It is judged after 8 and before 9. */
    PLATES_BAD_MARKS = 14,
    /* More than 64 picks are asked for; place 0. It is judged after 4 and before 5. */
    PLATES_TOO_MANY_PICKS = 15,
    /* The record to revise is 0 or above the number of records, or its new length is above 1,000,000; place 0. It is judged after
     * 8 and before 9. */
    PLATES_BAD_REVISION = 16,
    /* The low and the high outline have different numbers of records; place 0. Or a byte of the record outside its price differs,
     * the lock included, or its low price is above its high one, be it a taxon or a group; place is the lowest such record. It is
     * judged after 8, and 4 after it. */
    PLATES_BAD_RANGE = 17
};

/* What stands where in the answer of plates_choose, in that of plates_revise, which tells of the revised outline, and in that of
 * plates_range, which tells of the high prices. */
enum plates_answer {
    /* The refusal's number or PLATES_OK: the same that the call gives. */
    PLATES_ANSWER_NUMBER = 0,
    /* The refusal's place; 0 for a selection. */
    PLATES_ANSWER_PLACE = 1,
    /* The diversity of the best set. This and all that follow are 0 for a refusal. */
    PLATES_ANSWER_DIVERSITY = 2,
    /* Its cost in quarters, headings included. */
    PLATES_ANSWER_COST = 3,
    /* The number of taxa in it. */
    PLATES_ANSWER_TAXA = 4,
    /* How many quarters the page count could be lower, with a set that fits, at the same diversity: the page count minus the
     * cost. */
    PLATES_ANSWER_SPARE = 5,
    /* The number of elements. */
    PLATES_ANSWER_LEN = 6
};

/* The same for plates_read, whose number and place stand where those of plates_choose do. */
enum plates_read_answer {
    /* How many records the outline has; 0 for a refusal. */
    PLATES_READ_ANSWER_RECORDS = 2,
    /* The number of elements. */
    PLATES_READ_ANSWER_LEN = 3
};

/* The same for plates_write, whose number and place stand there too. */
enum plates_write_answer {
    /* How many bytes the text has. This and what follows are 0 for a refusal. */
    PLATES_WRITE_ANSWER_BYTES = 2,
    /* How many pairs there are, one for each taxon; a pair is two numbers. */
    PLATES_WRITE_ANSWER_PAIRS = 3,
    /* The number of elements. */
    PLATES_WRITE_ANSWER_LEN = 4
};

/* The same for plates_quick, whose number and place stand there too. */
enum plates_quick_answer {
    /* The diversity of the set, rooted. This and what follows are 0 for a refusal. */
    PLATES_QUICK_ANSWER_DIVERSITY = 2,
    /* Its cost in quarters, headings included. */
    PLATES_QUICK_ANSWER_COST = 3,
    /* The number of taxa in it, the locked ones included. */
    PLATES_QUICK_ANSWER_TAXA = 4,
    /* The number of elements. */
    PLATES_QUICK_ANSWER_LEN = 5
};

/* The same for plates_sheet, whose number and place stand there too. */
enum plates_sheet_answer {
    /* How many rows the sheet has, one for each taxon of the set. This and what follows are 0 for a refusal. */
    PLATES_SHEET_ANSWER_ROWS = 2,
    /* The sum of the rows' quarters: the cost of the set. */
    PLATES_SHEET_ANSWER_QUARTERS = 3,
    /* The sum of the rows' diversity: that of the set. */
    PLATES_SHEET_ANSWER_DIVERSITY = 4,
    /* The number of elements. */
    PLATES_SHEET_ANSWER_LEN = 5
};

/* The same for plates_view_house and plates_view_buyer, which give no more than number and place. */
enum plates_view_answer {
    /* The number of elements. */
    PLATES_VIEW_ANSWER_LEN = 2
};

/* The same for plates_house_form and plates_compare, which give no more either; the order is written beside the answer. */
enum plates_form_answer {
    /* The number of elements. */
    PLATES_FORM_ANSWER_LEN = 2
};

/* What stands where in moved of plates_revise. Both are 0 for a refusal. */
enum plates_moved {
    /* The best diversity of the revised outline less that of the given one. */
    PLATES_MOVED_BEST = 0,
    /* The new length less the old one. */
    PLATES_MOVED_LENGTH = 1,
    /* The number of elements. */
    PLATES_MOVED_LEN = 2
};

/*
 * Reads a tree from text, with its prices beside it, and writes its outline.
 *
 * Gives PLATES_OK, or the first of refusals 10, 3, 11, 9, 5, 7 and 8 that holds, in this order (the links are made here, so 6
 * does not arise), and writes all three elements of answer in any case. So a text of more than 127 records gets 3 only if all of
 * it is well formed. The place of 5 and 8 is the number that the record has in the text's order.
 *
 * On PLATES_OK, for N records, the first PLATES_OUTLINE_LEN(N) bytes of outline are an outline that plates_check accepts, and
 * the bytes beyond stay as they were. On a refusal all of outline stays as it was. An outline of PLATES_MOST_OUTLINE_LEN bytes
 * has room for every tree.
 *
 * Pairs are matched by number alone. So a taxon with plate 0 is a case of 5 if there is one pair for 0, and of 11 otherwise;
 * two taxa with one plate are a case of 8 if that plate has one pair, and of 11 otherwise.
 */
uint32_t plates_read(const uint8_t *text, size_t text_len, const uint32_t *pairs, size_t pairs_len,
                     uint8_t *outline, size_t outline_len, uint32_t answer[3]);

/*
 * Writes an outline as text, with its prices beside it.
 *
 * Gives PLATES_OK, or the first of refusals 2, 3, 5 to 8, 13 and 9 that holds, in this order, and writes all four elements of
 * answer in any case. On PLATES_OK, for B bytes and P pairs:
 *
 *     text    the first B: the tree, up to its semicolon
 *     pairs   the first 2 * P: plate and price of each taxon, in the order of the text
 *
 * Elements beyond these stay as they were, so a buffer may be longer than needed. On a refusal text and pairs both stay as they
 * were. A text of PLATES_MOST_WRITTEN_LEN bytes and pairs of PLATES_MOST_PAIRS_LEN numbers have room for every outline.
 */
uint32_t plates_write(const uint8_t *outline, size_t outline_len, uint8_t *text, size_t text_len,
                      uint32_t *pairs, size_t pairs_len, uint32_t answer[4]);

/*
 * Whether an outline is sound.
 *
 * Gives PLATES_OK, or the first of refusals 2, 3 and 5 to 8 that holds (the others concern other calls). *place is written
 * in any case: the refusal's place, 0 for PLATES_OK.
 */
uint32_t plates_check(const uint8_t *outline, size_t outline_len, uint32_t *place);

/*
 * The number of the record of the taxon that has a plate, from 1. 0 if no taxon has it, or if plates_check refuses the outline.
 * The lock is no part of the plate, so no taxon has one above PLATES_MOST_PLATE.
 */
uint32_t plates_find(const uint8_t *outline, size_t outline_len, uint32_t plate);

/*
 * Chooses the best set of taxa for a page count.
 *
 * Gives PLATES_OK, or the first of refusals 1 to 9 and 12 that holds, and writes all six elements of answer in any case. On
 * PLATES_OK, for N records and a count B:
 *
 *     marks   the first N: for each record 1 if it is a chosen taxon, else 0; record r stands at marks[r - 1]
 *     curve   the first 2 * (B + 1): for each count b from 0 to B the best diversity at curve[2 * b], and its cost at
 *             curve[2 * b + 1]; where no set fits b, which is never so at B, these are 0 and PLATES_NO_SET
 *     work    the first 4 * (N + 2) * (B + 1): all 0
 *
 * Elements beyond these stay as they were, so a buffer may be longer than needed. On a refusal marks, curve and work all stay
 * as they were.
 */
uint32_t plates_choose(const uint8_t *outline, size_t outline_len, uint32_t count, uint32_t way,
                       uint8_t *marks, size_t marks_len, uint32_t *curve, size_t curve_len,
                       uint64_t *work, size_t work_len, uint32_t answer[6]);

/*
 * Makes a quick choice of taxa for a page count, rooted, with at most `picks` picks.
 *
 * Gives PLATES_OK, or the first of refusals 2, 3, 4, 15, 5 to 8, 9 and 12 that holds, in this order, and writes all five
 * elements of answer and *ceiling in any case. On a refusal *ceiling is 0. On PLATES_OK, for N records:
 *
 *     marks      the first N: for each record 1 if it is a taxon of the set, else 0; record r stands at marks[r - 1]
 *     *ceiling   a number that the best diversity is never above
 *
 * Marks beyond these stay as they were, so there may be more than needed. On a refusal all of them stay as they were. Marks of
 * PLATES_MOST_MARKS_LEN bytes have room for every outline, and PLATES_MOST_PICKS picks are enough for each.
 */
uint32_t plates_quick(const uint8_t *outline, size_t outline_len, uint32_t count, uint32_t picks,
                      uint8_t *marks, size_t marks_len, uint32_t answer[5], uint64_t *ceiling);

/*
 * Chooses the best set of taxa for a page count as if the length of record `record` (from 1) were `length`, and tells how far the
 * best diversity moves by that.
 *
 * Gives PLATES_OK, or the first of refusals 1 to 8, 16, 9 and 12 that holds, in this order, and writes all six elements of answer
 * and both of moved in any case. On a refusal both of moved are 0. On PLATES_OK, for the outline with that length:
 *
 *     marks, curve, work, answer   as plates_choose leaves them, with the same count, way and buffers
 *     moved                        the best diversity less that of the outline as it is, and the new length less the old one
 *
 * The first of moved is never larger in size than the second, and never of the other sign. What plates_choose gives of the outline
 * as it is tells when it is exactly the second, and when it is 0: see WHEN ONE LENGTH IS REVISED. Elements beyond those that
 * plates_choose writes stay as they were, so a buffer may be longer than needed. On a refusal marks, curve and work all stay as
 * they were.
 */
uint32_t plates_revise(const uint8_t *outline, size_t outline_len, uint32_t record, uint32_t length, uint32_t count, uint32_t way,
                       uint8_t *marks, size_t marks_len, uint32_t *curve, size_t curve_len,
                       uint64_t *work, size_t work_len, uint32_t answer[6], int64_t moved[2]);

/*
 * Chooses for prices that are not yet agreed: the best set of taxa for a page count at high prices, and the best diversity at low
 * ones.
 *
 * Gives PLATES_OK, or the first of these that holds, in this order: 1; the refusal that plates_check gives for low; the one that it
 * gives for high; 17, 4, 9 and 12. Writes all six elements of answer and *roof in any case. The place of a refusal by the check is
 * a record of low where plates_check refuses low, and otherwise of high. Buffers are too short (9), and locked taxa too dear (12),
 * where they are for plates_choose on high. On a refusal *roof is 0. On PLATES_OK:
 *
 *     marks, curve, work, answer   as plates_choose leaves them for high, with the same count, way and buffers: the marked set is
 *                                  the sure set, and the diversity of the answer the floor
 *     *roof                        the best diversity that plates_choose gives of low, with the same count and way
 *
 * The sure set fits the count for all prices between, and the best diversity then is at least the floor and at most the roof: see
 * PRICES NOT YET AGREED. Elements beyond those that plates_choose writes stay as they were, so a buffer may be longer than needed.
 * On a refusal marks, curve and work all stay as they were.
 */
uint32_t plates_range(const uint8_t *low, size_t low_len, const uint8_t *high, size_t high_len, uint32_t count, uint32_t way,
                      uint8_t *marks, size_t marks_len, uint32_t *curve, size_t curve_len,
                      uint64_t *work, size_t work_len, uint32_t answer[6], uint32_t *roof);

/*
 * Lists the taxa of a marked set, with what each adds.
 *
 * Gives PLATES_OK, or the first of refusals 1, 2, 3, 5 to 8, 14 and 9 that holds, in this order, and writes all five elements of
 * answer in any case. marks is read here: for each record 1 if it is a taxon of the set, else 0; record r stands at
 * marks[r - 1]. Marks beyond the records are not looked at. On PLATES_OK, for R rows:
 *
 *     sheet   the first 3 * R: for each taxon of the set, in record order, its plate without the lock, the quarters and the
 *             diversity that it adds
 *
 * Elements beyond these stay as they were, so the sheet may be longer than needed. On a refusal all of it stays as it was. A
 * sheet of PLATES_MOST_SHEET_LEN numbers has room for every set.
 */
uint32_t plates_sheet(const uint8_t *outline, size_t outline_len, uint32_t way,
                      const uint8_t *marks, size_t marks_len, uint32_t *sheet, size_t sheet_len, uint32_t answer[5]);

/*
 * What a house reader gets: the records as they are.
 *
 * Gives PLATES_OK, or the first of refusals 2, 3 and 5 to 9 that holds, and writes both elements of answer in any case. On
 * PLATES_OK, for N records:
 *
 *     view   the first PLATES_OUTLINE_LEN(N): the bytes of the outline
 *
 * Bytes beyond these stay as they were, so the view may be longer than needed. On a refusal all of it stays as it was. A view of
 * PLATES_MOST_OUTLINE_LEN bytes has room for every outline.
 */
uint32_t plates_view_house(const uint8_t *outline, size_t outline_len, uint8_t *view, size_t view_len, uint32_t answer[2]);

/*
 * What a buyer's reader gets: the records without prices and locks.
 *
 * As plates_view_house, with the same refusals, but for what is written. On PLATES_OK, for N records:
 *
 *     view   the first PLATES_OUTLINE_LEN(N): the bytes of the outline, but the price of each record is 0, and so is bit 31 of
 *            its plate field
 */
uint32_t plates_view_buyer(const uint8_t *outline, size_t outline_len, uint8_t *view, size_t view_len, uint32_t answer[2]);

/*
 * Writes the house form of an outline.
 *
 * Gives PLATES_OK, or the first of refusals 2, 3 and 5 to 9 that holds, and writes both elements of answer in any case. On
 * PLATES_OK, for N records:
 *
 *     form   the first PLATES_OUTLINE_LEN(N): the house form
 *
 * Bytes beyond these stay as they were, so the form may be longer than needed. On a refusal all of it stays as it was. A form of
 * PLATES_MOST_OUTLINE_LEN bytes has room for every outline.
 */
uint32_t plates_house_form(const uint8_t *outline, size_t outline_len, uint8_t *form, size_t form_len, uint32_t answer[2]);

/*
 * Compares two trees by their house forms.
 *
 * Gives PLATES_OK, or the first of these that holds: the refusal that plates_check gives for a; the one that it gives for b; 9,
 * if one of the forms is too short or both are. Writes both elements of answer and *order in any case. The place is a record of
 * a where plates_check refuses a, and otherwise of b. On PLATES_OK, for N records of a and M of b:
 *
 *     form_a   the first PLATES_OUTLINE_LEN(N): the house form of a
 *     form_b   the first PLATES_OUTLINE_LEN(M): the house form of b
 *     *order   PLATES_BEFORE, PLATES_SAME or PLATES_AFTER: a number as the comparison functions of qsort and bsearch give it
 *
 * Bytes beyond these stay as they were, so a form may be longer than needed. On a refusal both forms stay as they were, and
 * *order is 0, as for the same tree, so look at the number first. Forms of PLATES_MOST_OUTLINE_LEN bytes have room for every
 * outline.
 */
uint32_t plates_compare(const uint8_t *a, size_t a_len, const uint8_t *b, size_t b_len,
                        uint8_t *form_a, size_t form_a_len, uint8_t *form_b, size_t form_b_len,
                        uint32_t answer[2], int32_t *order);

/* A number in one to four bytes, least significant first. For the functions below. */
static inline void plates_put_field_(uint8_t *at, size_t bytes, uint32_t value) {
    size_t k;
    for (k = 0; k < bytes; k++) {
        at[k] = PLATES_CAST_(uint8_t, value & 0xffu);
        value >>= 8;
    }
}

static inline uint32_t plates_field_(const uint8_t *at, size_t bytes) {
    uint32_t value = 0;
    while (bytes != 0) {
        bytes--;
        value = value << 8 | at[bytes];
    }
    return value;
}

/*
 * Writes record `record` (from 1) into an outline that has room for it: PLATES_OUTLINE_LEN(record) bytes. Judges nothing.
 * plate_field is the plate of a taxon, or PLATES_LOCK | plate if it is locked, and 0 for a group.
 */
static inline void plates_put_record(uint8_t *outline, size_t record, uint16_t next, uint16_t first,
                                     uint32_t length, uint32_t price, uint32_t plate_field) {
    uint8_t *at = outline + PLATES_OUTLINE_LEN(record - 1);
    plates_put_field_(at, 2, next);
    plates_put_field_(at + 2, 2, first);
    plates_put_field_(at + 4, 4, length);
    plates_put_field_(at + 8, 4, price);
    plates_put_field_(at + 12, 4, plate_field);
}

/* The fields of record `record` (from 1), which the outline has to have. */
static inline uint32_t plates_record_next(const uint8_t *outline, size_t record) {
    return plates_field_(outline + PLATES_OUTLINE_LEN(record - 1), 2);
}

static inline uint32_t plates_record_first(const uint8_t *outline, size_t record) {
    return plates_field_(outline + PLATES_OUTLINE_LEN(record - 1) + 2, 2);
}

static inline uint32_t plates_record_length(const uint8_t *outline, size_t record) {
    return plates_field_(outline + PLATES_OUTLINE_LEN(record - 1) + 4, 4);
}

static inline uint32_t plates_record_price(const uint8_t *outline, size_t record) {
    return plates_field_(outline + PLATES_OUTLINE_LEN(record - 1) + 8, 4);
}

/* The plate without the lock. */
static inline uint32_t plates_record_plate(const uint8_t *outline, size_t record) {
    return plates_field_(outline + PLATES_OUTLINE_LEN(record - 1) + 12, 4) & (PLATES_LOCK - 1);
}

/* 1 for a locked taxon, else 0. */
static inline uint32_t plates_record_is_locked(const uint8_t *outline, size_t record) {
    uint32_t field = plates_field_(outline + PLATES_OUTLINE_LEN(record - 1) + 12, 4);
    return plates_record_first(outline, record) == 0 && (field & PLATES_LOCK) != 0 ? 1 : 0;
}

/* The curve's two numbers for a count, which has to be at most the page count that was chosen for. Where no set fits the count,
 * the diversity is 0 and the cost PLATES_NO_SET. */
static inline uint32_t plates_curve_diversity(const uint32_t *curve, size_t count) {
    return curve[2 * count];
}

static inline uint32_t plates_curve_cost(const uint32_t *curve, size_t count) {
    return curve[2 * count + 1];
}

/* The three numbers of row `row` (from 0), which the sheet has to have. */
static inline uint32_t plates_sheet_plate(const uint32_t *sheet, size_t row) {
    return sheet[3 * row];
}

static inline uint32_t plates_sheet_quarters(const uint32_t *sheet, size_t row) {
    return sheet[3 * row + 1];
}

static inline uint32_t plates_sheet_diversity(const uint32_t *sheet, size_t row) {
    return sheet[3 * row + 2];
}

#ifdef __cplusplus
}
#endif

#endif
