-- Queue ROUNDS: what example_waiting's queue does, by GHC's stm: two threads pass the numbers from 1 to ROUNDS each to two
-- others, through eight places, and these add them up.
module Main where
import Control.Concurrent
import Control.Concurrent.STM
import Control.Monad
import Data.Array
import Data.Word
import System.Environment

data Queue = Queue { ends :: TVar (Int, Int), places :: Array Int (TVar Word64) }

room :: Int
room = 8

push :: Queue -> Word64 -> STM ()
push queue item = do
  (first, count) <- readTVar (ends queue)
  when (count >= room) retry
  writeTVar (places queue ! ((first + count) `mod` room)) item
  let has = count + 1
  has `seq` writeTVar (ends queue) (first, has)

pop :: Queue -> TVar Word64 -> STM ()
pop queue total = do
  (first, count) <- readTVar (ends queue)
  when (count == 0) retry
  item <- readTVar (places queue ! first)
  let next = (first + 1) `mod` room
      has = count - 1
  next `seq` has `seq` writeTVar (ends queue) (next, has)
  had <- readTVar total
  let now = had + item
  now `seq` writeTVar total now

main :: IO ()
main = do
  [rounds] <- map read <$> getArgs
  queue <- Queue <$> newTVarIO (0, 0) <*> (listArray (0, room - 1) <$> replicateM room (newTVarIO 0))
  total <- newTVarIO 0
  dones <- forM [0 .. 3 :: Int] $ \number -> do
    done <- newEmptyMVar
    _ <- forkOn number $ do
      forM_ [1 .. rounds] $ \item -> atomically (if number < 2 then push queue item else pop queue total)
      putMVar done ()
    pure done
  mapM_ takeMVar dones
  told <- readTVarIO total
  putStrLn ("the numbers passed add up to " ++ show told)
