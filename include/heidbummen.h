/* Heidbummen: the margin ledger's entry points for C and every language that calls C.
 *
 * A ledger is a list of signed 64-bit words that the caller lends (`words`, `count`). docs/RULES.md says which word is which and what a sound ledger is
 * (section 3), what limits and shortfalls are (4), what each call does (5 to 7), its numbers and figures (8), what a day file and its sheet are (9, 10), what
 * this interface adds (12), how a rate comes from price history (13); the rules are those of document 01 as the requests of document 02 that have landed
 * change it. Every function takes any words and any figures. It answers a number (0: done) and a figure; a refusal (any other number) leaves everything that
 * was lent as it was (fx_question and fx_rate alone write, to the places lent for their answer: figures and count 0). Nothing is kept between calls and
 * nothing is allocated. */
#ifndef HEIDBUMMEN_H
#define HEIDBUMMEN_H

#include <stddef.h>
#include <stdint.h>

#ifdef __cplusplus
extern "C" {
#endif

struct fx_reply {
    uint64_t number;
    int64_t figure;
};

/* An account's figures before its positions. Kind 0 is a broker F, 1 a liquidity provider L. */
struct fx_account {
    int64_t kind, cash, guarantee, cap, margin, due0, due1, due2;
};

/* What is my cash after I pay in `amount` yen? Refused: 1 ledger not sound, 3 no such account, 5 amount not in 1..10^12, 10 gross would pass 10^15. */
struct fx_reply fx_deposit(int64_t *words, size_t count, int64_t account, int64_t amount);

/* May I take out `amount` yen, and what is left? Refused: 1, 3, 5, 11 above the limit; with 11 the figure is the limit. */
struct fx_reply fx_withdraw(int64_t *words, size_t count, int64_t account, int64_t amount);

/* What does my new letter of guarantee count for? The figure is the LG value. Refused: 1, 3, 5, 6 the account is an L. */
struct fx_reply fx_guarantee(int64_t *words, size_t count, int64_t account, int64_t guarantee, int64_t cap);

/* How much may I take out, and what am I short of? Limit, first and second shortfall; the second of an L counts what due 0 takes, whatever due 1 brings (M-101).
 * The three figures are written in every case, 0 when refused: 1, 3. Nothing in the ledger changes. */
uint64_t fx_question(const int64_t *words, size_t count, int64_t account, int64_t *limit, int64_t *first, int64_t *second);

/* Is the trade taken into the books? The buyer's lots rise, the seller's fall. Refused: 1, 3, 4 no such product, 6 not between one F and one L, 8 lots or price
 * out of range, 9 a position or book would pass its range. */
struct fx_reply fx_trade(int64_t *words, size_t count, int64_t buyer, int64_t seller, int64_t product, int64_t lots, int64_t price);

/* May the settlement run begin? Refused: 1, 7 not in this phase, 13 house would be out of range after some account. */
struct fx_reply fx_begin(int64_t *words, size_t count);

/* Whose transfer was made? The figure is the account, counted from 0. Refused: 1, 7. */
struct fx_reply fx_step(int64_t *words, size_t count);

/* Is the day closed? One price, 8-week rate, 104-week rate and lag for each product. Refused: 1, 2 a list's length, 7, 8 a figure out of range, 12 an account's gross
 * would pass 10^15; with 12 the figure is the lowest such account. */
struct fx_reply fx_close(int64_t *words, size_t count, const int64_t *prices, size_t prices_count, const int64_t *rates8, size_t rates8_count,
                         const int64_t *rates104, size_t rates104_count, const int64_t *lags, size_t lags_count);

/* What do I bear of a default loss? `first` and `second` receive each member's share of layer one and of layer two; the figure is what remains uncovered. All
 * five lists have one length, 1..64. Refused: 2, 5 the loss is out of range, 8 a deposit, difference or mark is. */
struct fx_reply fx_share(int64_t loss, const int64_t *deposits, size_t deposits_count, const int64_t *differences, size_t differences_count,
                         const int64_t *marks, size_t marks_count, int64_t *first, size_t first_count, int64_t *second, size_t second_count);

/* What rate does this price history ask for, and which window governs? The figure is the larger rate, in hundredths of a percent (M-105). A window is a list of
 * natural logarithms of daily price ratios, in whole hundred-thousandths. Done: `*governs` points at the first figure of the list that gave the larger rate, the 8-week
 * list on a tie, and `*governs_count` is its length: all of the caller's own list. Refused: 2 a list has fewer than 2 figures or more than 520, 8 a figure is not in
 * -20,000..20,000; then `*governs_count` is 0 and `*governs` points at the start of `weeks8`, or stays as it was where that list has no figure. What `*governs` holds
 * before is never read. */
struct fx_reply fx_rate(const int64_t *weeks8, size_t weeks8_count, const int64_t *weeks104, size_t weeks104_count, const int64_t **governs,
                        size_t *governs_count);

/* The same as a deposit and a withdrawal, on a single record: the teller window. Refused: 1 the record is not sound, 5, and 10 or 11. */
struct fx_reply fx_teller_deposit(struct fx_account *account, int64_t amount);
struct fx_reply fx_teller_withdraw(struct fx_account *account, int64_t amount);

/* What does the sheet of this day file say? Its bytes stand at the start of `out`, and their number is answered; the bytes past it stay. Where `room` is below 65,536
 * the answer is 0 and `out` is left alone. */
size_t fx_sheet(const uint8_t *text, size_t length, uint8_t *out, size_t room);

#ifdef __cplusplus
}
#endif

#endif
