// Places blocks by annealing, as placement.py does, draw for draw: the names are the same, and what is done
// is told there. Reads a problem and prints the cost at first and at last, and x, y and number of each block.
#include <algorithm>
#include <cmath>
#include <cstdint>
#include <iostream>
#include <vector>

using std::vector;

const double SHARE_WANTED = 0.44;

struct Chance {
    uint64_t state;

    explicit Chance(uint64_t seed) : state(seed) {
        for (int k = 0; k < 8; k++) draw();
    }

    double draw() {
        state = state * 6364136223846793005u + 1442695040888963407u;
        return double(state >> 11) / 9007199254740992.0;
    }

    int below(int count) { return int(draw() * count); }

    void shuffle(vector<int> &things) {
        for (int last = int(things.size()) - 1; last > 0; last--) std::swap(things[last], things[below(last + 1)]);
    }
};

struct Spot {
    int x, y, number;
};

struct Bounds {
    int left, right, bottom, top;

    long cost() const { return right - left + top - bottom; }
};

struct Problem {
    int side, pads;
    uint64_t seed;
    double effort;
    vector<int> is_pad;
    vector<vector<int>> nets;

    explicit Problem(std::istream &in) {
        int blocks, count;
        in >> side >> pads >> seed >> effort >> blocks >> count;
        is_pad.resize(blocks);
        nets.resize(count);
        for (int &pad : is_pad) in >> pad;
        for (vector<int> &net : nets) {
            in >> count;
            net.resize(count);
            for (int &block : net) in >> block;
        }
    }
};

struct Board {
    int side, pads, first_pad, border;
    vector<Spot> spots;
    vector<int> spot_of, block_at, xs, ys;
    const vector<vector<int>> &nets;
    vector<vector<int>> nets_of;
    vector<Bounds> bounds;

    Board(const Problem &problem, Chance &chance) : side(problem.side), pads(problem.pads), nets(problem.nets) {
        make_spots();
        set_blocks(problem.is_pad, chance);
        nets_of.resize(problem.is_pad.size());
        for (int net = 0; net < int(nets.size()); net++) {
            for (int block : nets[net]) nets_of[block].push_back(net);
            bounds.push_back(bounds_among(nets[net]));
        }
    }

    void make_spots() {
        for (int x = 1; x <= side; x++)
            for (int y = 1; y <= side; y++) spots.push_back({x, y, 0});
        first_pad = int(spots.size());
        border = 4 * side;
        for (int k = 1; k <= side; k++) add_pads(k, 0);
        for (int k = 1; k <= side; k++) add_pads(side + 1, k);
        for (int k = side; k >= 1; k--) add_pads(k, side + 1);
        for (int k = side; k >= 1; k--) add_pads(0, k);
    }

    void add_pads(int x, int y) {
        for (int number = 0; number < pads; number++) spots.push_back({x, y, number});
    }

    void set_blocks(const vector<int> &is_pad, Chance &chance) {
        vector<int> logic, around;
        for (int spot = 0; spot < int(spots.size()); spot++) (spot < first_pad ? logic : around).push_back(spot);
        chance.shuffle(logic);
        chance.shuffle(around);
        block_at.assign(spots.size(), -1);
        for (int pad : is_pad) {
            vector<int> &free = pad ? around : logic;
            block_at[free.back()] = int(spot_of.size());
            spot_of.push_back(free.back());
            xs.push_back(spots[free.back()].x);
            ys.push_back(spots[free.back()].y);
            free.pop_back();
        }
    }

    Bounds bounds_among(const vector<int> &blocks) const {
        Bounds found{xs[blocks[0]], xs[blocks[0]], ys[blocks[0]], ys[blocks[0]]};
        for (int block : blocks) found = with(found, xs[block], ys[block]);
        return found;
    }

    static Bounds with(Bounds b, int x, int y) {
        return {std::min(b.left, x), std::max(b.right, x), std::min(b.bottom, y), std::max(b.top, y)};
    }

    long cost() const {
        long sum = 0;
        for (const Bounds &b : bounds) sum += b.cost();
        return sum;
    }

    void stand(int block, int spot) {
        xs[block] = spots[spot].x;
        ys[block] = spots[spot].y;
    }

    void take(int block, int spot, int target) {
        int other = block_at[target];
        block_at[target] = block;
        block_at[spot] = other;
        spot_of[block] = target;
        if (other >= 0) spot_of[other] = spot;
    }

    bool has(int block, int net) const {
        return std::binary_search(nets_of[block].begin(), nets_of[block].end(), net);
    }

    struct Found {
        int net;
        Bounds bounds;
    };

    // The nets of `other`, or none if that is -1, are still.
    void bounds_after(int block, int start, int end, int other, vector<Found> &found) const {
        int x0 = spots[start].x, y0 = spots[start].y, x1 = spots[end].x, y1 = spots[end].y;
        for (int net : nets_of[block]) {
            if (other >= 0 && has(other, net)) continue;
            const Bounds &b = bounds[net];
            bool goes_in = (x1 > x0 && x0 == b.left) || (x1 < x0 && x0 == b.right) ||
                           (y1 > y0 && y0 == b.bottom) || (y1 < y0 && y0 == b.top);
            if (goes_in)
                found.push_back({net, bounds_among(nets[net])});
            else if (x1 < b.left || x1 > b.right || y1 < b.bottom || y1 > b.top)
                found.push_back({net, with(b, x1, y1)});
        }
    }
};

struct Annealer {
    Board &board;
    Chance &chance;
    long cost;
    int reach;
    vector<int> movable;
    vector<Board::Found> found;

    Annealer(Board &board, Chance &chance)
        : board(board), chance(chance), cost(board.cost()), reach(board.side) {
        for (int block = 0; block < int(board.nets_of.size()); block++)
            if (!board.nets_of[block].empty()) movable.push_back(block);
    }

    int spot_near(int block) {
        int x = board.xs[block], y = board.ys[block];
        if (board.spot_of[block] < board.first_pad) {
            int left = std::max(1, x - reach), bottom = std::max(1, y - reach);
            x = left + chance.below(std::min(x + reach, board.side) - left + 1);
            y = bottom + chance.below(std::min(y + reach, board.side) - bottom + 1);
            return (x - 1) * board.side + y - 1;
        }
        int steps = chance.below(2 * reach + 1) - reach;
        int place = (board.spot_of[block] - board.first_pad) / board.pads + steps;
        place = (place % board.border + board.border) % board.border;
        return board.first_pad + place * board.pads + chance.below(board.pads);
    }

    bool move(double temperature) {
        int block = movable[chance.below(int(movable.size()))];
        int target = spot_near(block);
        int spot = board.spot_of[block];
        if (target == spot) return false;
        int other = board.block_at[target];
        board.stand(block, target);
        if (other >= 0) board.stand(other, spot);
        found.clear();
        board.bounds_after(block, spot, target, other, found);
        if (other >= 0) board.bounds_after(other, target, spot, block, found);
        long growth = 0;
        for (const Board::Found &f : found) growth += f.bounds.cost() - board.bounds[f.net].cost();
        if (growth > 0 && chance.draw() >= std::exp(double(-growth) / temperature)) {
            board.stand(block, spot);
            if (other >= 0) board.stand(other, target);
            return false;
        }
        board.take(block, spot, target);
        for (const Board::Found &f : found) board.bounds[f.net] = f.bounds;
        cost += growth;
        return true;
    }

    double hold(double temperature, long moves) {
        long taken = 0;
        for (long k = 0; k < moves; k++) taken += move(temperature);
        return double(taken) / double(moves);
    }

    double first_temperature() {
        vector<long> costs;
        long sum = 0;
        for (size_t k = 0; k < movable.size(); k++) {
            move(INFINITY);
            costs.push_back(cost);
            sum += cost;
        }
        double mean = double(sum) / double(costs.size()), spread = 0;
        for (long cost : costs) spread += (double(cost) - mean) * (double(cost) - mean);
        return 20 * std::sqrt(spread / double(costs.size()));
    }

    static double cooling(double share) {
        if (share > 0.96) return 0.5;
        if (share > 0.8) return 0.9;
        return share > 0.15 ? 0.95 : 0.8;
    }

    void anneal(double effort) {
        long moves = std::max(1L, long(effort * std::pow(double(movable.size()), 4.0 / 3.0)));
        double temperature = first_temperature();
        while (temperature > 0.005 * double(cost) / double(board.nets.size())) {
            double share = hold(temperature, moves);
            temperature *= cooling(share);
            double wanted = reach * (1 - SHARE_WANTED + share);
            reach = std::max(1, std::min(board.side, int(wanted + 0.5)));
        }
        hold(1e-9, moves);
    }
};

int main() {
    std::ios::sync_with_stdio(false);
    Problem problem(std::cin);
    Chance chance(problem.seed);
    Board board(problem, chance);
    long first = board.cost();
    if (first > 0) Annealer(board, chance).anneal(problem.effort);
    std::cout << first << ' ' << board.cost() << '\n';
    for (int spot : board.spot_of)
        std::cout << board.spots[spot].x << ' ' << board.spots[spot].y << ' ' << board.spots[spot].number << '\n';
}
