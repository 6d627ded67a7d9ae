#include "ecow.hpp"

int main() {
    ecow::list a{1, 2, 3};
    ecow::list b = a;
    a.push_back(4);
    return a == ecow::list{1, 2, 3, 4} && b == ecow::list{1, 2, 3} ? 0 : 1;
}
