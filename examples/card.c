/* A fuel card of neon and hydrogen, written from component lists and read back into the parameters: its bytes, and the sigma of the
 * pair. The parameters are those of the worked cases 'hydrogen' and 'neon'; l_ij is for the look of it. */
#include <domthelv.h>
#include <stdio.h>

enum { N = 2 };

static double m[DOMTHELV_M], lists[DOMTHELV_LISTS], sheets[DOMTHELV_SHEETS];
static uint8_t orders[DOMTHELV_ORDERS], card[DOMTHELV_CARD];

int main(void) {
    const double ones[N] = {1.0, 1.0}, sigma[N] = {2.7778, 3.0243}, epsilon_k[N] = {37.501, 26.706}, lr[N] = {13.0, 9.0}, la[N] = {6.0, 6.0};
    const double mass[N] = {3.35092e-26, 3.3474472e-27}, k_ij[N * N] = {0.0, 0.105, 0.105, 0.0}, l_ij[N * N] = {0.0, 0.0, 0.0, 0.0};
    const uint8_t order[N] = {1, 1};
    uint8_t model = 0;
    size_t count = 0, length = 0;
    uint8_t refused = domthelv_vrq_card(N, ones, N, sigma, N, epsilon_k, N, lr, N, la, N, mass, N, order, N, k_ij, N * N, l_ij, N * N, card,
        DOMTHELV_CARD, &length);
    if (!refused) refused = domthelv_card_parameters(card, length, &model, &count, m, DOMTHELV_M, lists, DOMTHELV_LISTS, sheets,
        DOMTHELV_SHEETS, orders, DOMTHELV_ORDERS);
    if (refused != DOMTHELV_ACCEPTED) return printf("refused: %d\n", refused), 1;
    printf("a card of %zu bytes:", length);
    for (size_t k = 0; k < length; k++) printf("%s%02x", k % 32 ? "" : "\n", card[k]);
    printf("\nmodel %d, %zu components, sigma of the pair %.17g\n", model, count, sheets[DOMTHELV_AT(DOMTHELV_VRQ_SIGMA_IJ, 0, 1)]);
    return 0;
}
